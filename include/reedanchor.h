/*
 * Reedanchor for C and C++: a judge of booking plans whose every answer is proved.
 *
 * A sheet is a net and a plan as bytes (README.md, "The sheet"). Each call gets a sheet as a pointer and a length, judges it for all
 * orders at once, and relies on no earlier call.
 *
 * What holds of every call:
 *
 * Sheets      Any bytes may be given, of any length. They are only read. A call that is given the first 21,281 bytes of a longer sheet says
 *             the same as one that is given all of it.
 * Faults      A call returns 0, or the number of its fault: the first of the list below that applies, of those that the call looks for (mending
 *             drops the pairs of 8 to 10). A refused call changes no row.
 * Rows        A row is lent as a pointer and a length in entries. Entries beyond those needed are neither read nor changed, so a row may be
 *             longer than needed, and one of the greatest length given below does for every sheet.
 * Numbers     A number behind a pointer of its own is a result. It is written at every return, whatever stood there, and is 0 where the
 *             call is refused. `*item` is the item at fault for 5 to 10 and 0 for every other fault and for none.
 * Null        A null pointer may be given for a sheet or a row of length 0, and for nothing else: not for a single number, nor for a
 *             sheet or a row with a length.
 * Overlaps    What a call writes may not overlap with anything else that it is given: rows and numbers are all apart.
 * Threads     There is no state, nothing is kept after the call, and no memory is allocated. Calls may run at once in several threads if
 *             what one of them writes isn't given to another meanwhile. Every call ends.
 * Stack       The working rows stand on the caller's stack, as long as the plan needs. The REEDANCHOR_STACK_.. numbers are bytes that suffice for
 *             a call of that name, below the caller's own frame.
 */
#ifndef REEDANCHOR_H
#define REEDANCHOR_H

#include <stddef.h>
#include <stdint.h>

#ifdef __cplusplus
extern "C" {
#endif

/* What a sheet may have at most. */
#define REEDANCHOR_MOST_PLACES 64
#define REEDANCHOR_MOST_TRANSITIONS 64
#define REEDANCHOR_MOST_EVENTS 256
#define REEDANCHOR_MOST_PAIRS 1024

/* The longest sheet, and how much of any bytes is enough to judge them: a longer sheet is refused by that much of it. */
#define REEDANCHOR_MOST_BYTES 21280
#define REEDANCHOR_ENOUGH_BYTES (REEDANCHOR_MOST_BYTES + 1)

/* Rows that are long enough for every sheet, in entries. */
#define REEDANCHOR_ROW_LENGTH REEDANCHOR_MOST_PLACES
#define REEDANCHOR_FLOW_LENGTH (REEDANCHOR_MOST_PAIRS + REEDANCHOR_MOST_EVENTS)
#define REEDANCHOR_MARKS_LENGTH REEDANCHOR_MOST_EVENTS
#define REEDANCHOR_TEXT_LENGTH 7216
#define REEDANCHOR_CLEAN_LENGTH REEDANCHOR_MOST_BYTES
#define REEDANCHOR_REASONS_LENGTH REEDANCHOR_MOST_PAIRS

/* The table of contents that a sheet begins with, in bytes; its entries; and the item count that one of them tells. */
#define REEDANCHOR_TABLE_BYTES 32
#define REEDANCHOR_PLACES 0
#define REEDANCHOR_TRANSITIONS 1
#define REEDANCHOR_EVENTS 2
#define REEDANCHOR_PAIRS 3
#define REEDANCHOR_COUNT(sheet, entry)                                                                          \
    ((uint32_t)(sheet)[8 * (entry) + 4] | (uint32_t)(sheet)[8 * (entry) + 5] << 8 |                             \
     (uint32_t)(sheet)[8 * (entry) + 6] << 16 | (uint32_t)(sheet)[8 * (entry) + 7] << 24)

/* The stack that suffices for each call, in bytes: on any sheet, and, where that is less, on one whose plan has at most 64 events, or at
 * most 16. */
#define REEDANCHOR_STACK_JUDGE (384 * 1024)
#define REEDANCHOR_STACK_JUDGE_64 (160 * 1024)
#define REEDANCHOR_STACK_JUDGE_16 (96 * 1024)
#define REEDANCHOR_STACK_FAULT (32 * 1024)
#define REEDANCHOR_STACK_PLAN (384 * 1024)
#define REEDANCHOR_STACK_PLAN_64 (160 * 1024)
#define REEDANCHOR_STACK_PLAN_16 (96 * 1024)
#define REEDANCHOR_STACK_PLACE (384 * 1024)
#define REEDANCHOR_STACK_PLACE_64 (160 * 1024)
#define REEDANCHOR_STACK_PLACE_16 (96 * 1024)
#define REEDANCHOR_STACK_CHECK_FLOW (32 * 1024)
#define REEDANCHOR_STACK_LISTING (384 * 1024)
#define REEDANCHOR_STACK_LISTING_64 (160 * 1024)
#define REEDANCHOR_STACK_LISTING_16 (96 * 1024)
#define REEDANCHOR_STACK_MEND (16 * 1024)

enum {
    /* No fault. From reedanchor_judge it says that the plan runs: nothing is missing at any place. */
    REEDANCHOR_RUNS = 0,

    /* Faults of a sheet, in the order in which they are looked for. Late or early is decided at the first entry of the table of contents
     * whose start is wrong. */
    REEDANCHOR_NO_TABLE = 1,       /* fewer than 32 bytes */
    REEDANCHOR_OVER_LIMIT = 2,     /* an item count above its limit: 64 places, 64 transitions, 256 events, 1,024 pairs */
    REEDANCHOR_LATE_BODY = 14,     /* a body starts late, leaving a gap */
    REEDANCHOR_EARLY_BODY = 15,    /* a body starts early, running into the one before */
    REEDANCHOR_WRONG_END = 4,      /* the sheet doesn't end with its last body */
    REEDANCHOR_OVER_OPENING = 5,   /* an opening count above 1,000,000; the item is the first such place */
    REEDANCHOR_OVER_WEIGHT = 6,    /* a weight above 1,000; the first such transition */
    REEDANCHOR_NO_TRANSITION = 7,  /* an event names no transition; the first such event */
    REEDANCHOR_NO_EVENT = 8,       /* a pair names no event; the first such pair */
    REEDANCHOR_SELF_PAIR = 9,      /* a pair of an event with itself; the first such pair */
    REEDANCHOR_REPEATED_PAIR = 10, /* a pair given twice; the first pair that repeats an earlier one */
    REEDANCHOR_CYCLE = 11,         /* the order has a cycle */

    /* Faults of a call, looked for after those of the sheet. */
    REEDANCHOR_NO_PLACE = 12,  /* the place number isn't in the net */
    REEDANCHOR_SHORT_ROW = 13, /* a lent row is too short */

    /* From reedanchor_judge alone: the plan is short. This plus the number of the first place where something is missing, so 1,000 to 1,063. */
    REEDANCHOR_SHORT = 1000
};

/*
 * The till server's call: REEDANCHOR_RUNS, the number of the sheet's fault, or REEDANCHOR_SHORT plus the number of the first short place.
 */
uint32_t reedanchor_judge(const uint8_t *sheet, size_t length);

/*
 * The fault of a sheet.
 */
uint32_t reedanchor_fault(const uint8_t *sheet, size_t length, uint32_t *item);

/*
 * The plan judgement: how many tokens are missing at each place.
 *
 * row            needs an entry for each place, and gets the place's missing count there: the least number of tokens more with which the plan
 *                runs at the place, 0 where it runs
 * *total         the sum of all missing counts
 * *short_places  how many places are short; 0 says that the plan runs
 * *first         the first short place; 0 also where nothing is short
 */
uint32_t reedanchor_plan(const uint8_t *sheet, size_t length, uint32_t *row, size_t row_length, uint32_t *item, uint32_t *total,
                         uint32_t *short_places, uint32_t *first);

/*
 * The place judgement: whether the plan runs at one place, how many tokens the place has to spare, and what shows it.
 *
 * flow    needs an entry for each pair and then one for each event. It gets a valid flow if the plan runs at the place, a number for each
 *         pair in the sheet's order and then each event's share of the opening count, else zeros.
 * marks   needs a byte for each event. It gets 1 for each event of the smallest done set at which most tokens lack if the plan doesn't run
 *         at the place, else zeros.
 * *spare  the opening count less the least opening count with which the plan runs at the place, from -256,000 to 1,000,000. Below 0 the
 *         plan doesn't run there, and as many tokens are missing.
 */
uint32_t reedanchor_place(const uint8_t *sheet, size_t length, size_t place, uint32_t *flow, size_t flow_length, uint8_t *marks,
                          size_t marks_length, uint32_t *item, int32_t *spare);

/*
 * The flow check: whether a flow drawn up elsewhere is valid at a place.
 *
 * flow    is as above, and only read; any numbers may stand there
 * *valid  1 if it is valid, else 0
 */
uint32_t reedanchor_check_flow(const uint8_t *sheet, size_t length, size_t place, const uint32_t *flow, size_t flow_length, uint32_t *item,
                               uint32_t *valid);

/*
 * The listing: what is found of a sheet, as lines of text. A faulty sheet has a listing too, `refused` and its fault's number, so the
 * only fault of this call is REEDANCHOR_SHORT_ROW.
 *
 * text      needs a byte for each of the listing's, REEDANCHOR_TEXT_LENGTH at most. It gets ASCII characters, each line ended by a line feed,
 *           and no zero at the end.
 * *written  the listing's length
 */
uint32_t reedanchor_listing(const uint8_t *sheet, size_t length, uint8_t *text, size_t text_length, size_t *written);

/* Why a pair was dropped: the first of these that applies. */
enum {
    REEDANCHOR_KEPT = 0,
    REEDANCHOR_NAMES_NO_EVENT = 1,
    REEDANCHOR_OF_ONE_EVENT = 2, /* a pair of an event with itself */
    REEDANCHOR_REPEATS = 3       /* it repeats an earlier pair, which is kept */
};

/*
 * Mending a sheet: pairs that name no event, pairs of an event with itself and repeats are dropped, and all else is kept in its order. The clean
 * sheet has no fault, and mending it again changes nothing.
 *
 * Its faults are those of a sheet up to REEDANCHOR_NO_TRANSITION, then REEDANCHOR_CYCLE on the pairs that are kept, then REEDANCHOR_SHORT_ROW.
 *
 * clean     needs as many bytes as the sheet given, REEDANCHOR_CLEAN_LENGTH at most, and gets the clean sheet
 * reasons   needs a byte for each given pair, and gets REEDANCHOR_KEPT or why the pair was dropped
 * *written  the clean sheet's length
 */
uint32_t reedanchor_mend(const uint8_t *sheet, size_t length, uint8_t *clean, size_t clean_length, uint8_t *reasons, size_t reasons_length,
                         uint32_t *item, size_t *written);

#ifdef __cplusplus
}
#endif

#endif
