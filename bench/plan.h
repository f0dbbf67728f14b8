// A plan in plain arrays, as read from a sheet, with its order worked out once.
#ifndef PLAN_H
#define PLAN_H

#include <stddef.h>
#include <stdint.h>

#define MAX_PLACES 64
#define MAX_TRANSITIONS 64
#define MAX_EVENTS 256
#define MAX_PAIRS 1024
#define MAX_OPENING 1000000
#define MAX_WEIGHT 1000
#define MAX_SHEET 21280
#define PLAN_ENTRIES 4 // of the table of contents: places, transitions, events, pairs

struct plan {
    uint32_t item; // at fault: the first place, transition, event or pair for 5 to 10, else 0
    unsigned places, transitions, events, pairs;
    uint32_t opening[MAX_PLACES];
    uint16_t takes[MAX_TRANSITIONS][MAX_PLACES];
    uint16_t gives[MAX_TRANSITIONS][MAX_PLACES];
    uint16_t label[MAX_EVENTS];
    uint16_t earlier[MAX_PAIRS], later[MAX_PAIRS];
    uint8_t before[MAX_EVENTS][MAX_EVENTS]; // before[a][b]: a is before b
    unsigned arcs;                          // the skeleton pairs alone
    uint16_t arc_from[MAX_PAIRS], arc_to[MAX_PAIRS];
};

#ifdef __cplusplus
extern "C" {
#endif

// Reads a sheet. Returns 0, or the number of its fault, the first of 1, 2, 14 or 15, and 4 to 11; the item is then all that the
// plan is good for.
uint32_t plan_read(const uint8_t *sheet, size_t length, struct plan *plan);

// The same up to the pairs: no cycle is looked for, and neither "before" nor the skeleton is worked out.
uint32_t plan_read_pairs(const uint8_t *sheet, size_t length, struct plan *plan);

// The first entry of a table of contents whose start isn't the end of what precedes it, PLAN_ENTRIES if there is none.
unsigned plan_wrong_entry(const uint8_t *sheet);

// What event `e` takes from a place and gives to it.
static inline unsigned plan_takes(const struct plan *plan, unsigned e, unsigned place)
{
    return plan->takes[plan->label[e]][place];
}

static inline unsigned plan_gives(const struct plan *plan, unsigned e, unsigned place)
{
    return plan->gives[plan->label[e]][place];
}

#ifdef __cplusplus
}
#endif

#endif
