// How often each call was made, with which answers and in which ways.
#ifndef TALLY_H
#define TALLY_H

#include <stdint.h>

#include "flow.h"

enum call { JUDGE, FAULT, PLAN, PLACE, CHECK_FLOW, LISTING, MEND, CALLS };

// Ways in which calls, sheets and answers differ; each has to occur.
enum way {
    WALKED,        // all done sets of a plan were walked
    ABOVE_LIMIT,   // a sheet longer than any may be
    CUT_TO_ENOUGH, // such a sheet of which only the bytes that are enough were lent
    RUNS,
    SHORT_AT_0,
    SHORT_LATER, // the first short place is a later one
    SHORT_TWICE, // more than one short place
    SPARE_BELOW_0,
    SPARE_0,
    SPARE_ABOVE_0,
    DONE_SOME, // a done set that isn't empty
    VALID,
    INVALID,
    VALID_CHANGED, // a flow that is valid still though an entry changed by one
    INVALID_CHANGED,
    ROW_EXACT,
    ROW_LONGER,
    ROW_ONE_SHORT,
    ROW_SHORTER,
    ROW_NULL,
    WRONG_PLACE_SHORT_ROW, // a wrong place and a short row at once
    FLOW_SHORT_ALONE,
    MARKS_SHORT_ALONE,
    CLEAN_SHORT_ALONE,
    REASONS_SHORT_ALONE,
    CLEAN_ROW_BETWEEN, // long enough for the clean sheet and too short for the one given
    CYCLE_SHORT_ROW,   // a cycle of the pairs kept and a short row at once
    CYCLE_AND_DROPPED, // such a cycle, and pairs that are dropped
    EVERY_REASON,      // all in one sheet
    ALL_DROPPED,       // no pair is kept
    MOST_PAIRS,        // as many pairs as there may be, and some are dropped
    STRUCK_SELF,       // a pair of one number that no event has
    STRUCK_AGAIN,      // a pair that names no event, given again
    SELF_AGAIN,        // a pair of an event with itself, given again
    REPEAT_APART,      // a repeat that doesn't follow the same pair
    MENDED_AGAIN,      // what was handed back, without some pairs
    WAYS
};

enum { FAULTS = 16, REASONS = 4 }; // fault numbers are below this, and so are reasons, 0 for a pair that is kept

struct tally {
    unsigned long sheets, calls[CALLS], faults[CALLS][FAULTS], ways[WAYS];
    unsigned long later_item[FAULTS];                      // faults whose item isn't 0
    unsigned long late[PLAN_ENTRIES], early[PLAN_ENTRIES]; // faults 14 and 15, by the first wrong entry
    unsigned long rule_alone[RULES];                       // flows that break this rule and no other
    unsigned long reasons[REASONS];                        // pairs
    unsigned long reason_alone[REASONS];                   // sheets of which pairs are dropped for this reason and no other; at 0, none is
};

// Whether this call may have this fault, 0 for none.
int tally_knows(enum call call, uint32_t fault);

unsigned long tally_calls(const struct tally *tally);

void tally_print(const struct tally *tally);

// Whether each call, answer and way occurred so many times; names those that didn't.
int tally_shows_enough(const struct tally *tally, unsigned long least);

extern const char *const call_names[CALLS];

#endif
