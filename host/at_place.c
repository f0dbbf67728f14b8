// The calls about one place, compared with what is due: the place judgement, and the flow check on flows of many kinds.
#include "at_place.h"

#include <string.h>

static size_t flow_length(const struct trial *trial)
{
    return trial_needs(trial, trial->due.fault == 0, trial->due.plan.pairs + trial->due.plan.events);
}

static uint32_t fault_at(const struct trial *trial, size_t place, int too_short)
{
    if (trial->due.fault != 0)
        return trial->due.fault;
    if (place >= trial->due.plan.places) {
        trial->tally->ways[WRONG_PLACE_SHORT_ROW] += too_short;
        return REEDANCHOR_NO_PLACE;
    }
    return too_short ? REEDANCHOR_SHORT_ROW : 0;
}

static void expect_zeros(const struct trial *trial, const struct row *row, size_t length)
{
    const uint8_t *at = row->at;

    for (size_t i = 0; i < row->size * length; i++)
        expect(trial, "a byte of a row that is due to be zeros", at[i], 0);
}

// What is handed over: a valid flow, or the done set that shows what is missing.
static void expect_shown(const struct trial *trial, unsigned place)
{
    const struct plan *plan = &trial->due.plan;
    const uint8_t *marks = trial->marks.at, *done = trial->due.done[place];
    size_t length = plan->pairs + plan->events;

    if (due_spare(&trial->due, place) < 0) {
        expect_zeros(trial, &trial->flow, length);
        for (unsigned e = 0; e < plan->events; e++)
            expect(trial, "the mark of an event", marks[e], done[e]);
        trial->tally->ways[DONE_SOME] += memchr(done, 1, plan->events) != NULL;
    } else {
        expect_zeros(trial, &trial->marks, plan->events);
        expect(trial, "the rules that the flow breaks", flow_broken(plan, place, trial->flow.at), 0);
    }
    expect_kept(trial, &trial->flow, length);
    expect_kept(trial, &trial->marks, plan->events);
}

void try_place(struct trial *trial, size_t place, int flow_enough, int marks_enough)
{
    struct number item = number_of_junk(trial->r), spare = number_of_junk(trial->r);
    const uint8_t *sheet = trial_lend(trial, PLACE);
    int flow_short = trial_lend_row(trial, 0, &trial->flow, flow_length(trial), flow_enough);
    int marks_short = trial_lend_row(trial, 1, &trial->marks, trial_needs(trial, trial->due.fault == 0, trial->due.plan.events), marks_enough);
    uint32_t fault = fault_at(trial, place, flow_short || marks_short);

    trial->place = place;
    trial_end(trial,
              reedanchor_place(sheet, trial->lent, place, trial->flow.at, trial->flow.length, trial->marks.at, trial->marks.length, &item.value,
                               (int32_t *)&spare.value),
              fault);
    expect_number(trial, "the item", &item, trial->due.item);
    expect_number(trial, "the spare count", &spare, fault == 0 ? (uint32_t)due_spare(&trial->due, (unsigned)place) : 0);
    if (fault != 0) {
        expect_kept(trial, &trial->flow, 0);
        expect_kept(trial, &trial->marks, 0);
        trial->tally->ways[FLOW_SHORT_ALONE] += fault == REEDANCHOR_SHORT_ROW && !marks_short;
        trial->tally->ways[MARKS_SHORT_ALONE] += fault == REEDANCHOR_SHORT_ROW && !flow_short;
        return;
    }
    int32_t due = due_spare(&trial->due, (unsigned)place);
    trial->tally->ways[due < 0 ? SPARE_BELOW_0 : due == 0 ? SPARE_0 : SPARE_ABOVE_0]++;
    expect_shown(trial, (unsigned)place);
}

static void count_flow(struct tally *tally, unsigned broken)
{
    tally->ways[broken == 0 ? VALID : INVALID]++;
    for (int rule = 0; rule < RULES; rule++)
        tally->rule_alone[rule] += broken == 1u << rule;
}

// One flow check, of a row of junk if there is no flow. Returns whether the flow is valid.
static int check(struct trial *trial, size_t place, const uint32_t *flow, int enough)
{
    struct number item = number_of_junk(trial->r), valid = number_of_junk(trial->r);
    const uint8_t *sheet = trial_lend(trial, CHECK_FLOW);
    size_t needed = flow_length(trial);
    int too_short = trial_lend_row(trial, 0, &trial->given, needed, enough), due = 0;
    uint32_t fault = fault_at(trial, place, too_short);

    if (flow != NULL)
        row_put(&trial->given, flow, needed);
    if (fault == 0) {
        unsigned broken = flow_broken(&trial->due.plan, (unsigned)place, trial->given.at);
        count_flow(trial->tally, broken);
        due = broken == 0;
    }
    trial->place = place;
    trial_end(trial, reedanchor_check_flow(sheet, trial->lent, place, trial->given.at, trial->given.length, &item.value, &valid.value), fault);
    expect_number(trial, "the item", &item, trial->due.item);
    expect_number(trial, "whether the flow is valid", &valid, (uint32_t)due);
    return due;
}

void try_check_flow(struct trial *trial, size_t place, int enough)
{
    check(trial, place, NULL, enough);
}

// Changes of a flow that has entries.

static void change_by_one(uint32_t *flow, unsigned length, struct random *r)
{
    flow[random_below(r, length)] += random_below(r, 2) == 0 ? 1 : UINT32_MAX;
}

static void raise_to_greatest(uint32_t *flow, unsigned length, struct random *r)
{
    flow[random_below(r, length)] = UINT32_MAX;
}

// Two numbers such that a sum of 32 bits stays as it is.
static void move(uint32_t *flow, unsigned length, struct random *r)
{
    uint32_t moved = random_below(r, 2) == 0 ? 1u << random_below(r, 32) : (uint32_t)random_next(r);

    flow[random_below(r, length)] += moved;
    flow[random_below(r, length)] -= moved;
}

static void set_all_to_greatest(uint32_t *flow, unsigned length, struct random *r)
{
    (void)r;
    memset(flow, 0xff, length * sizeof *flow);
}

static void set_all_to_zero(uint32_t *flow, unsigned length, struct random *r)
{
    (void)r;
    memset(flow, 0, length * sizeof *flow);
}

static void set_all_to_few(uint32_t *flow, unsigned length, struct random *r)
{
    for (unsigned i = 0; i < length; i++)
        flow[i] = random_below(r, 3);
}

void try_flows(struct trial *trial, size_t place)
{
    static void (*const changes[])(uint32_t *, unsigned, struct random *) = {
        change_by_one, change_by_one, change_by_one, raise_to_greatest, move, set_all_to_greatest, set_all_to_zero, set_all_to_few,
    };
    uint32_t handed[REEDANCHOR_FLOW_LENGTH] = {0}, flow[REEDANCHOR_FLOW_LENGTH];
    unsigned length = trial->due.plan.pairs + trial->due.plan.events;

    try_place(trial, place, 1, 1);
    if (length > 0)
        memcpy(handed, trial->flow.at, length * sizeof *handed);
    int handed_valid = check(trial, place, handed, 1);
    check(trial, place, handed, 0);
    for (unsigned i = 0; length > 0 && i < sizeof changes / sizeof *changes; i++) {
        memcpy(flow, handed, sizeof flow);
        changes[i](flow, length, trial->r);
        int valid = check(trial, place, flow, 1);
        if (handed_valid && changes[i] == change_by_one)
            trial->tally->ways[valid ? VALID_CHANGED : INVALID_CHANGED]++;
    }
}
