/*
 * A lift, instant by instant, that goes on after a restart: between the runs
 * of this program the monitor is in the file STATE.
 *
 *     live open STATE SHEET        opens the lift sheet
 *     live take STATE RECORD...    takes instants, a record to a file, and
 *                                  prints the line of each as `watch` does
 *     live show STATE              after a restart: the last line, and how
 *                                  many live remainders owe each clock
 */
#define _POSIX_C_SOURCE 200809L
#include <stdio.h>
#include <string.h>
#include <unistd.h>
#include "lift.h"

static lift_state state;

/* A longer sheet or record is refused as its front is. */
static uint8_t bytes[65704];

/* A file that can't be opened counts as empty. */
static size_t read_file(const char *name, void *room, size_t size)
{
    FILE *f = fopen(name, "rb");
    size_t n;

    if (f == NULL) {
        return 0;
    }
    n = fread(room, 1, size, f);
    fclose(f);
    return n;
}

/* Reads the state of the last run. Of no state, 11 is what the calls say. */
static void load(const char *name)
{
    if (read_file(name, &state, sizeof state) != sizeof state) {
        memset(&state, 0, sizeof state);
    }
}

/* A new file, which takes the old one's place once it is whole on the disk. */
static int store(const char *name)
{
    char new_name[4096];
    FILE *f;
    int whole;

    if (snprintf(new_name, sizeof new_name, "%s.new", name)
        >= (int)sizeof new_name) {
        return 0;
    }
    f = fopen(new_name, "wb");
    if (f == NULL) {
        return 0;
    }
    whole = fwrite(&state, sizeof state, 1, f) == 1
        && fflush(f) == 0 && fsync(fileno(f)) == 0;
    whole = fclose(f) == 0 && whole;
    return whole && rename(new_name, name) == 0;
}

static void print_result(uint64_t result)
{
    unsigned long number = lift_count(result);

    if (lift_number(result) != 0) {
        printf("refused %u\n", (unsigned)lift_number(result));
    } else if (lift_answer(result) == LIFT_HOLDING) {
        printf("%lu holding %u %s\n", number, (unsigned)lift_live(result),
               lift_clear(result) ? "clear" : "owed");
    } else {
        printf("%lu %s 0 -\n", number,
               lift_answer(result) == LIFT_BROKEN ? "broken" : "exhausted");
    }
}

static int open_sheet(const char *name, const char *sheet)
{
    size_t n = read_file(sheet, bytes, sizeof bytes);
    uint64_t result = lift_open(bytes, n, &state);

    print_result(result);
    return lift_number(result) != 0 || store(name);
}

static int take(const char *name, char **records)
{
    load(name);
    for (; *records != NULL; records++) {
        size_t n = read_file(*records, bytes, sizeof bytes);
        uint64_t result = lift_observe(&state, bytes, n);

        /* Stored before it is shown: what was shown holds after a restart. */
        if (lift_number(result) == 0 && !store(name)) {
            return 0;
        }
        print_result(result);
    }
    return 1;
}

static void show(const char *name)
{
    uint64_t last;
    uint8_t clock;

    load(name);
    last = lift_last(&state);
    print_result(last);
    if (lift_number(last) != 0) {
        return;
    }
    for (clock = 0; clock < 8; clock++) {
        printf("%u: %u\n", (unsigned)clock,
               (unsigned)lift_live(lift_owing(&state, clock)));
    }
}

int main(int argc, char **argv)
{
    int stored = 1;

    if (argc == 4 && strcmp(argv[1], "open") == 0) {
        stored = open_sheet(argv[2], argv[3]);
    } else if (argc >= 3 && strcmp(argv[1], "take") == 0) {
        stored = take(argv[2], argv + 3);
    } else if (argc == 3 && strcmp(argv[1], "show") == 0) {
        show(argv[2]);
    } else {
        fprintf(stderr, "live open STATE SHEET | take STATE RECORD..."
                        " | show STATE\n");
        return 2;
    }
    if (!stored) {
        fprintf(stderr, "the state can't be stored in %s\n", argv[2]);
        return 1;
    }
    return 0;
}
