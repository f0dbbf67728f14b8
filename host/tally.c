// How often each call was made, with which answers and in which ways.
#include "tally.h"

#include <stdarg.h>
#include <stdio.h>

#include "reedanchor.h"

const char *const call_names[CALLS] = {"judge", "fault", "plan", "place", "check_flow", "listing", "mend"};

static const char *const way_names[WAYS] = {
    [WALKED] = "all done sets walked",
    [ABOVE_LIMIT] = "sheet longer than any may be",
    [CUT_TO_ENOUGH] = "only what is enough of it lent",
    [RUNS] = "runs",
    [SHORT_AT_0] = "short at place 0",
    [SHORT_LATER] = "short first at a later place",
    [SHORT_TWICE] = "several short places",
    [SPARE_BELOW_0] = "spare below 0",
    [SPARE_0] = "spare 0",
    [SPARE_ABOVE_0] = "spare above 0",
    [DONE_SOME] = "done set not empty",
    [VALID] = "valid flow",
    [INVALID] = "invalid flow",
    [VALID_CHANGED] = "valid though changed by one",
    [INVALID_CHANGED] = "invalid as changed by one",
    [ROW_EXACT] = "row just long enough",
    [ROW_LONGER] = "longer row",
    [ROW_ONE_SHORT] = "row one too short",
    [ROW_SHORTER] = "row shorter still",
    [ROW_NULL] = "null row",
    [WRONG_PLACE_SHORT_ROW] = "wrong place and short row",
    [FLOW_SHORT_ALONE] = "flow row alone too short",
    [MARKS_SHORT_ALONE] = "marks alone too short",
    [CLEAN_SHORT_ALONE] = "clean row alone too short",
    [REASONS_SHORT_ALONE] = "reasons alone too short",
    [CLEAN_ROW_BETWEEN] = "clean row too short for the sheet given alone",
    [CYCLE_SHORT_ROW] = "cycle of kept pairs and short row",
    [CYCLE_AND_DROPPED] = "cycle of kept pairs beside dropped ones",
    [EVERY_REASON] = "every reason in one sheet",
    [ALL_DROPPED] = "all pairs dropped",
    [MOST_PAIRS] = "some of 1,024 pairs dropped",
    [STRUCK_SELF] = "pair of one number that no event has",
    [STRUCK_AGAIN] = "pair that names no event again",
    [SELF_AGAIN] = "self-pair again",
    [REPEAT_APART] = "repeat apart from its like",
    [MENDED_AGAIN] = "mended sheet mended again",
};

int tally_knows(enum call call, uint32_t fault)
{
    switch (fault) {
    case REEDANCHOR_RUNS:
        return 1;
    case REEDANCHOR_NO_PLACE:
        return call == PLACE || call == CHECK_FLOW;
    case REEDANCHOR_SHORT_ROW:
        return call != JUDGE && call != FAULT;
    case REEDANCHOR_NO_TABLE:
    case REEDANCHOR_OVER_LIMIT:
    case REEDANCHOR_LATE_BODY:
    case REEDANCHOR_EARLY_BODY:
    case REEDANCHOR_WRONG_END:
    case REEDANCHOR_OVER_OPENING:
    case REEDANCHOR_OVER_WEIGHT:
    case REEDANCHOR_NO_TRANSITION:
    case REEDANCHOR_CYCLE:
        return call != LISTING;
    case REEDANCHOR_NO_EVENT:
    case REEDANCHOR_SELF_PAIR:
    case REEDANCHOR_REPEATED_PAIR:
        return call != LISTING && call != MEND;
    default:
        return 0;
    }
}

static int has_item(uint32_t fault)
{
    return fault >= REEDANCHOR_OVER_OPENING && fault <= REEDANCHOR_REPEATED_PAIR;
}

unsigned long tally_calls(const struct tally *tally)
{
    unsigned long all = 0;

    for (int call = 0; call < CALLS; call++)
        all += tally->calls[call];
    return all;
}

static void print_faults(const struct tally *tally, enum call call)
{
    printf("; faults of %s", call_names[call]);
    for (uint32_t fault = 1; fault < FAULTS; fault++)
        if (tally_knows(call, fault))
            printf("%s %u %lu", fault == 1 ? "" : ",", fault, tally->faults[call][fault]);
}

static void print_reasons(const struct tally *tally)
{
    for (int reason = 0; reason < REASONS; reason++)
        printf("%s %d %lu", reason == 0 ? "; pairs by reason" : ",", reason, tally->reasons[reason]);
    for (int reason = 0; reason < REASONS; reason++)
        printf("%s %d %lu", reason == 0 ? "; sheets by one alone" : ",", reason, tally->reason_alone[reason]);
}

void tally_print(const struct tally *tally)
{
    printf("%lu calls on %lu sheets as is due:", tally_calls(tally), tally->sheets);
    for (int call = 0; call < CALLS; call++)
        printf("%s %s %lu", call == 0 ? "" : ",", call_names[call], tally->calls[call]);
    print_faults(tally, PLACE);
    print_faults(tally, MEND);
    print_reasons(tally);
    for (int rule = 0; rule < RULES; rule++)
        printf("%s rule %d %lu", rule == 0 ? "; broken alone" : ",", rule + 1, tally->rule_alone[rule]);
    for (int way = 0; way < WAYS; way++)
        printf("%s %s %lu", way == 0 ? ";" : ",", way_names[way], tally->ways[way]);
    printf("\n");
}

static int __attribute__((format(printf, 3, 4))) enough(unsigned long found, unsigned long least, const char *what, ...)
{
    va_list values;

    if (found >= least)
        return 1;
    va_start(values, what);
    fprintf(stderr, "compare: too seldom, %lu times and not %lu: ", found, least);
    vfprintf(stderr, what, values);
    fprintf(stderr, "\n");
    va_end(values);
    return 0;
}

int tally_shows_enough(const struct tally *tally, unsigned long least)
{
    int all = 1;

    for (int call = 0; call < CALLS; call++)
        for (uint32_t fault = 0; fault < FAULTS; fault++)
            if (tally_knows(call, fault))
                all &= enough(tally->faults[call][fault], least, "fault %u of %s", fault, call_names[call]);
    for (uint32_t fault = 0; fault < FAULTS; fault++)
        if (has_item(fault))
            all &= enough(tally->later_item[fault], least, "fault %u with an item above 0", fault);
    for (unsigned entry = 0; entry < PLAN_ENTRIES; entry++) {
        all &= enough(tally->late[entry], least, "entry %u starts late", entry);
        all &= enough(tally->early[entry], least, "entry %u starts early", entry);
    }
    for (unsigned rule = 0; rule < RULES; rule++)
        all &= enough(tally->rule_alone[rule], least, "rule %u broken alone", rule + 1);
    for (int reason = 0; reason < REASONS; reason++) {
        all &= enough(tally->reasons[reason], least, "pairs with reason %d", reason);
        all &= enough(tally->reason_alone[reason], least, "reason %d alone", reason);
    }
    for (int way = 0; way < WAYS; way++)
        all &= enough(tally->ways[way], way == ABOVE_LIMIT || way == CUT_TO_ENOUGH ? 1 : least, "%s", way_names[way]);
    return all;
}
