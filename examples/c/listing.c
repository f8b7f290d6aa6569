/*
 * listing SHEET LOG: prints what `watch SHEET LOG` prints, by lift_watch.
 * Before that it tries the other calls on document 01's listing, and ends
 * with status 1 if one of them gives something else.
 */
#include <stdio.h>
#include "lift.h"

/* Document 01's listing: two clocks; 0 delayed by 2 on 0 implies 1. */
static const uint8_t listed_sheet[] = {
    1, 0, 1, 0, 2,
    5, 0, 20, 0, 0, 0, 1, 2, 0,
};

enum { RECORD = 10 };

static const uint8_t listed_log[] = {
    6, 0, 32, 0, 1, 0xfd, 0xff, 0, 0, 0, /* 0 ticks at -3 */
    6, 0, 32, 0, 2, 0xfe, 0xff, 0, 0, 0, /* 0 unseen at -2 */
    6, 0, 32, 0, 0, 0xff, 0xff, 1, 0, 0, /* 0 idle at -1, 1 ticks */
    6, 0, 32, 0, 0, 1, 0, 0, 0, 0,       /* 0 idle at 1 */
    6, 0, 32, 0, 0, 0, 0, 0, 0, 0,       /* 0 idle at 0: its tag falls */
};

/* How many of the live remainders owe a clock after n listed instants. */
static uint8_t owing(size_t n, uint8_t clock)
{
    return lift_live(lift_panel(listed_sheet, sizeof listed_sheet,
                                listed_log, n * RECORD, clock));
}

/* Whether the calls give what document 01 says of its listing. */
static int calls_right(void)
{
    uint64_t held = lift_judge(listed_sheet, sizeof listed_sheet,
                               listed_log, 3 * RECORD);
    uint64_t broken = lift_judge(listed_sheet, sizeof listed_sheet,
                                 listed_log, sizeof listed_log);
    uint8_t small[2 * LIFT_ENTRY + 2] = {7, 7, 7, 7, 7, 7, 7, 7};
    uint64_t brief = lift_watch(listed_sheet, sizeof listed_sheet,
                                listed_log, 3 * RECORD, small, sizeof small);
    size_t i;

    for (i = 0; i < sizeof small; i++) {
        if (small[i] != 7) {
            return 0;
        }
    }
    return lift_number(held) == 0 && lift_answer(held) == LIFT_HOLDING
        && lift_live(held) == 2 && lift_clear(held) == 1
        && lift_count(held) == 3
        && lift_answer(broken) == LIFT_BROKEN && lift_live(broken) == 0
        && lift_count(broken) == 5
        && lift_number(brief) == LIFT_SHORT_BUFFER && lift_count(brief) == 3
        && owing(0, 1) == 0 && owing(1, 1) == 1 && owing(2, 1) == 2
        && owing(3, 1) == 1 && owing(2, 0) == 0 && owing(5, 1) == 0
        && lift_sheet_number(listed_sheet, sizeof listed_sheet) == 0
        && lift_sheet_number(listed_sheet, 13) == 1
        && lift_instant_number(listed_log, RECORD, 2) == 0
        && lift_instant_number(listed_log, RECORD, 3) == 14
        && lift_instant_number(listed_log, RECORD - 1, 2) == 12;
}

/* The longest sheet and log that matter: no later byte changes a result. */
static uint8_t sheet[65704];
static uint8_t log_bytes[185539];
static uint8_t answers[LIFT_ENTRY * LIFT_INSTANTS];

/* A file that can't be opened counts as empty. */
static size_t read_file(const char *name, uint8_t *bytes, size_t room)
{
    FILE *f = fopen(name, "rb");
    size_t n;

    if (f == NULL) {
        return 0;
    }
    n = fread(bytes, 1, room, f);
    fclose(f);
    return n;
}

static void print_answer(unsigned long number, const uint8_t *entry)
{
    switch (entry[0]) {
    case LIFT_HOLDING:
        printf("%lu holding %u %s\n", number, (unsigned)entry[1],
               entry[2] ? "clear" : "owed");
        break;
    case LIFT_BROKEN:
        printf("%lu broken 0 -\n", number);
        break;
    case LIFT_EXHAUSTED:
        printf("%lu exhausted 0 -\n", number);
        break;
    default: /* LIFT_NONE: no answer was written here */
        break;
    }
}

int main(int argc, char **argv)
{
    size_t sheet_len, log_len;
    uint64_t result;
    uint32_t i;

    if (argc != 3) {
        fprintf(stderr, "listing SHEET LOG\n");
        return 2;
    }
    if (!calls_right()) {
        fprintf(stderr, "a call does not give what document 01 says\n");
        return 1;
    }
    sheet_len = read_file(argv[1], sheet, sizeof sheet);
    log_len = read_file(argv[2], log_bytes, sizeof log_bytes);
    result = lift_watch(sheet, sheet_len, log_bytes, log_len,
                        answers, sizeof answers);
    for (i = 0; i < lift_count(result); i++) {
        print_answer(i + 1ul, answers + LIFT_ENTRY * (size_t)i);
    }
    if (lift_number(result) != 0) {
        printf("refused %u\n", (unsigned)lift_number(result));
    }
    return 0;
}
