// Reads a sheet into plain arrays, with every fault of a sheet, and works out "before" and the skeleton.
#include "plan.h"

#include "words.h"

#include <stdbool.h>
#include <string.h>

enum { CONTENTS = 32 };

// A start and an item count as the table of contents gives them.
static uint32_t start_given(const uint8_t *sheet, unsigned entry)
{
    return get32(sheet + 8 * entry);
}

static uint32_t count_given(const uint8_t *sheet, unsigned entry)
{
    return get32(sheet + 8 * entry + 4);
}

// Where each body is due to start by the counts of those before it, and where the last one ends.
static void work_out_starts(const uint8_t *sheet, size_t due[PLAN_ENTRIES + 1])
{
    const size_t size[PLAN_ENTRIES] = {4, 4 * (size_t)count_given(sheet, 0), 2, 4};

    due[0] = CONTENTS;
    for (unsigned i = 0; i < PLAN_ENTRIES; i++)
        due[i + 1] = due[i] + count_given(sheet, i) * size[i];
}

unsigned plan_wrong_entry(const uint8_t *sheet)
{
    size_t due[PLAN_ENTRIES + 1];
    unsigned entry = 0;

    work_out_starts(sheet, due);
    while (entry < PLAN_ENTRIES && start_given(sheet, entry) == due[entry])
        entry++;
    return entry;
}

// Faults 1, 2, 14, 15 and 4; leaves the four counts in the plan, and in `start` the starts of the bodies and the end of the last one.
static uint32_t read_contents(const uint8_t *sheet, size_t length, struct plan *plan, size_t start[PLAN_ENTRIES + 1])
{
    static const uint32_t most[PLAN_ENTRIES] = {MAX_PLACES, MAX_TRANSITIONS, MAX_EVENTS, MAX_PAIRS};

    if (length < CONTENTS)
        return 1;
    for (unsigned i = 0; i < PLAN_ENTRIES; i++)
        if (count_given(sheet, i) > most[i])
            return 2;
    work_out_starts(sheet, start);
    unsigned wrong = plan_wrong_entry(sheet);
    if (wrong < PLAN_ENTRIES)
        return start_given(sheet, wrong) > start[wrong] ? 14 : 15;
    if (length != start[PLAN_ENTRIES])
        return 4;
    plan->places = count_given(sheet, 0);
    plan->transitions = count_given(sheet, 1);
    plan->events = count_given(sheet, 2);
    plan->pairs = count_given(sheet, 3);
    return 0;
}

// A fault with its item.
static uint32_t fault_at(struct plan *plan, uint32_t number, unsigned item)
{
    plan->item = item;
    return number;
}

// Faults 5 and 6.
static uint32_t read_net(const uint8_t *openings, const uint8_t *weights, struct plan *plan)
{
    for (unsigned p = 0; p < plan->places; p++) {
        plan->opening[p] = get32(openings + 4 * p);
        if (plan->opening[p] > MAX_OPENING)
            return fault_at(plan, 5, p);
    }
    for (unsigned t = 0; t < plan->transitions; t++) {
        for (unsigned p = 0; p < 2 * plan->places; p++) {
            uint32_t weight = get16(weights);
            weights += 2;
            if (weight > MAX_WEIGHT)
                return fault_at(plan, 6, t);
            if (p < plan->places)
                plan->takes[t][p] = (uint16_t)weight;
            else
                plan->gives[t][p - plan->places] = (uint16_t)weight;
        }
    }
    return 0;
}

// Faults 7 to 10, each looked for in the whole body before the next one.
static uint32_t read_events(const uint8_t *labels, const uint8_t *pairs, struct plan *plan)
{
    static uint32_t given[MAX_EVENTS][MAX_EVENTS / 32];
    unsigned self = MAX_PAIRS, twice = MAX_PAIRS; // the first such pairs

    for (unsigned e = 0; e < plan->events; e++) {
        uint32_t label = get16(labels + 2 * e);
        if (label >= plan->transitions)
            return fault_at(plan, 7, e);
        plan->label[e] = (uint16_t)label;
    }
    memset(given, 0, plan->events * sizeof *given);
    for (unsigned i = 0; i < plan->pairs; i++) {
        uint32_t a = get16(pairs + 4 * i), b = get16(pairs + 4 * i + 2);
        if (a >= plan->events || b >= plan->events)
            return fault_at(plan, 8, i);
        if (a == b && self == MAX_PAIRS)
            self = i;
        if ((given[a][b / 32] >> b % 32 & 1) != 0 && twice == MAX_PAIRS)
            twice = i;
        given[a][b / 32] |= (uint32_t)1 << b % 32;
        plan->earlier[i] = (uint16_t)a;
        plan->later[i] = (uint16_t)b;
    }
    return self < MAX_PAIRS ? fault_at(plan, 9, self) : twice < MAX_PAIRS ? fault_at(plan, 10, twice) : 0;
}

// What is before what, with one stop more each time (Warshall); returns 11 for a cycle. The archive orders the events instead.
static uint32_t work_out_before(struct plan *plan)
{
    memset(plan->before, 0, sizeof plan->before);
    for (unsigned i = 0; i < plan->pairs; i++)
        plan->before[plan->earlier[i]][plan->later[i]] = 1;
    for (unsigned stop = 0; stop < plan->events; stop++)
        for (unsigned a = 0; a < plan->events; a++)
            if (plan->before[a][stop])
                for (unsigned b = 0; b < plan->events; b++)
                    plan->before[a][b] |= plan->before[stop][b];
    for (unsigned e = 0; e < plan->events; e++)
        if (plan->before[e][e])
            return 11;
    return 0;
}

static bool event_between(const struct plan *plan, unsigned a, unsigned b)
{
    for (unsigned e = 0; e < plan->events; e++)
        if (plan->before[a][e] && plan->before[e][b])
            return true;
    return false;
}

static void work_out_skeleton(struct plan *plan)
{
    plan->arcs = 0;
    for (unsigned i = 0; i < plan->pairs; i++) {
        if (event_between(plan, plan->earlier[i], plan->later[i]))
            continue;
        plan->arc_from[plan->arcs] = plan->earlier[i];
        plan->arc_to[plan->arcs] = plan->later[i];
        plan->arcs++;
    }
}

uint32_t plan_read_pairs(const uint8_t *sheet, size_t length, struct plan *plan)
{
    size_t start[PLAN_ENTRIES + 1];

    plan->item = 0;
    uint32_t fault = read_contents(sheet, length, plan, start);

    if (fault == 0)
        fault = read_net(sheet + start[0], sheet + start[1], plan);
    if (fault == 0)
        fault = read_events(sheet + start[2], sheet + start[3], plan);
    return fault;
}

uint32_t plan_read(const uint8_t *sheet, size_t length, struct plan *plan)
{
    uint32_t fault = plan_read_pairs(sheet, length, plan);

    if (fault == 0)
        fault = work_out_before(plan);
    if (fault == 0)
        work_out_skeleton(plan);
    return fault;
}
