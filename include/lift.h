/*
 * The lift-run monitor: the calls of the static library `gateway`.
 *
 * docs/FORMAT.md has the bytes of sheets, logs and instants, and the refusal
 * numbers, 1 to 19, with their conditions in the order in which they are
 * checked. There are two ways to use the library: live, instant by instant,
 * with a state that the caller lends, and over a whole log. Every call takes
 * every input.
 *
 * The library keeps nothing between calls, takes no heap and writes nowhere
 * but into the state or the buffer that it is lent. Of stack, lift_observe
 * takes 6.6 KB, lift_owing 18.3 KB, the other live calls 3.1 KB and a call over
 * a log at most 42.5 KB, as bench/run measures.
 *
 * Every pointer must be valid for its length. A length of 0 needs a pointer
 * that is not null all the same; what it points to is not looked at. What is
 * written, a state or the buffer of lift_watch, must not overlap the byte
 * strings of the same call.
 *
 * Calls may run at the same time, save that a state is used by one call at a
 * time.
 */
#ifndef LIFT_H
#define LIFT_H

#include <stddef.h>
#include <stdint.h>

#ifdef __cplusplus
extern "C" {
#endif

/* Answers. */
#define LIFT_NONE 0 /* refused */
#define LIFT_EXHAUSTED 1
#define LIFT_BROKEN 2
#define LIFT_HOLDING 3

/* The refusal number of a buffer that is too short. */
#define LIFT_SHORT_BUFFER 10

/* The refusal number of a state that is no monitor within its limits. */
#define LIFT_NO_MONITOR 11

/* The refusal number of a numbered instant that is not the next. */
#define LIFT_NOT_NEXT 19

/* Bytes that lift_watch writes for an instant: answer, live, clear. */
#define LIFT_ENTRY 3

/* Instants of the longest log that is taken. */
#define LIFT_INSTANTS 4000

/*
 * A packed result. Every bit is fixed by the call's input.
 *
 *   bits 0 to 7    the refusal number, 0: none            lift_number
 *   bits 8 to 15   the answer, LIFT_NONE if refused       lift_answer
 *   bits 16 to 23  live, 0 unless holding                 lift_live
 *   bits 24 to 31  1: clear, 0: otherwise                 lift_clear
 *   bits 32 to 63  the instants taken, or held            lift_count
 */

/* ---- Live: a lift instant by instant. */

/* Words of a state. */
#define LIFT_STATE 4608

/*
 * A monitor: 18,432 bytes that the caller lends. Only what lift_open and
 * lift_observe leave in it is a monitor; it needs no word set before
 * lift_open.
 *
 * The words are all there is of a monitor: a state may be copied, and kept in
 * a file over a restart. They are numbers of 32 bits in the machine's own
 * order, on x86-64 the lowest byte first; the first word tells the format and
 * its version. A state of another version is no monitor (11).
 *
 * Store a state whole: write a new file, flush it to the disk, then rename it
 * over the old one. Of a state that was damaged, 11 tells only where its
 * words are outside a monitor's limits; within them its answers mean nothing,
 * so keep a checksum beside it where the file may be damaged.
 */
typedef struct {
    uint32_t word[LIFT_STATE];
} lift_state;

/*
 * Opens a sheet: the state becomes its monitor, whatever it was before. The
 * answer is that for no instant, lift_count 0.
 *
 * Refused is a sheet (1 to 9, 17, 18): every other bit is 0, and no word of
 * the state changes. A state that held a monitor still holds it.
 */
uint64_t lift_open(const uint8_t *sheet, size_t sheet_len, lift_state *state);

/*
 * Takes an instant's record: the answer, and in lift_count the instants held,
 * this one included. The state is then the monitor after it.
 *
 * Refused are a state (11, LIFT_NO_MONITOR), a record (12 to 15), an instant
 * after LIFT_INSTANTS (16) and a number that is not one above the instants
 * held (19, LIFT_NOT_NEXT), the first of these that applies: lift_count is
 * the instants held, 0 beside 11, the other bits are 0, and no word of the
 * state changes, so that the lift goes on with the next record.
 *
 * 19: of a number from 1 to lift_count the instant is held already, and the
 * record may be thrown away. 0 is no instant's number. Of any other number
 * the instants from lift_count + 1 on are missing, and every later one gets
 * 19 until they are handed over. A plain record (kind 32) has no number and
 * never gets 19: it is taken for the next instant.
 *
 * 11: the words are no monitor within its limits: they are of another version
 * of the format, or damaged. Take an older stored state, or open the sheet
 * again and hand over the log from its start.
 */
uint64_t lift_observe(lift_state *state,
                      const uint8_t *record, size_t record_len);

/*
 * The last answer of a state, that of lift_open or of the last instant taken,
 * and the instants held: what to show after a restart. Refused is a state
 * (11, every other bit 0).
 */
uint64_t lift_last(const lift_state *state);

/*
 * How many of the live remainders owe this clock a tick, by an obligation or
 * by a countdown (the D of kind 24), in the place of live (lift_live), and the
 * instants held; the answer and clear are 0. For a clock that the sheet does
 * not have, after broken and after exhausted it is 0. Refused is a state (11,
 * every other bit 0).
 */
uint64_t lift_owing(const lift_state *state, uint8_t clock);

/* ---- Over a whole log. */

/*
 * Judges a sheet and a whole log: the last answer, and the instants taken.
 * For an empty log the answer is that of opening the sheet. Refused are a
 * sheet (1 to 9, 17, 18, no instant taken) and a record of the log (12 to 16,
 * 19, the instants before it taken); the earliest fault decides.
 */
uint64_t lift_judge(const uint8_t *sheet, size_t sheet_len,
                    const uint8_t *log, size_t log_len);

/*
 * As lift_judge, with the answer of every instant taken written to the front
 * of out, LIFT_ENTRY bytes each, in order: the answer, live, clear. Later
 * bytes of out stay as they were. If a record of the log is refused, the
 * answers before it are written; if the sheet is, none is.
 *
 * If out is shorter than LIFT_ENTRY times the instants taken, the number is
 * LIFT_SHORT_BUFFER, whether or not a record of the log is refused; there is
 * no answer, lift_count is the instants to make room for, and no byte of out
 * is changed. LIFT_ENTRY * LIFT_INSTANTS bytes are enough for every log.
 */
uint64_t lift_watch(const uint8_t *sheet, size_t sheet_len,
                    const uint8_t *log, size_t log_len,
                    uint8_t *out, size_t out_len);

/*
 * After a whole log, how many of the live remainders owe this clock a tick,
 * as in lift_owing, in the place of live (lift_live), beside the refusal
 * number of the sheet or the log as in lift_judge and the instants taken; the
 * other bits are 0. On a refusal, after broken and exhausted, and for a clock
 * that the sheet does not have, the count of remainders is 0.
 */
uint64_t lift_panel(const uint8_t *sheet, size_t sheet_len,
                    const uint8_t *log, size_t log_len, uint8_t clock);

/* ---- Records alone. */

/* The refusal number of a sheet, 1 to 9, 17 or 18; 0: it is taken. */
uint8_t lift_sheet_number(const uint8_t *sheet, size_t sheet_len);

/*
 * The refusal number of an instant's record read for this count of clocks:
 * 4 if the count is not 1 to 8, else 12 to 15; 0: it is taken. A record read
 * alone may have every number: 19 is never among these.
 */
uint8_t lift_instant_number(const uint8_t *record, size_t record_len,
                            uint8_t clocks);

/* ---- The parts of a packed result. */

static inline uint8_t lift_number(uint64_t result)
{
    return (uint8_t)(result & 0xff);
}

static inline uint8_t lift_answer(uint64_t result)
{
    return (uint8_t)(result >> 8 & 0xff);
}

static inline uint8_t lift_live(uint64_t result)
{
    return (uint8_t)(result >> 16 & 0xff);
}

static inline uint8_t lift_clear(uint64_t result)
{
    return (uint8_t)(result >> 24 & 0xff);
}

static inline uint32_t lift_count(uint64_t result)
{
    return (uint32_t)(result >> 32);
}

#ifdef __cplusplus
}
#endif

#endif
