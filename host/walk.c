// Document 01's definitions, word by word: the greatest need over all done sets, and what the done sets with that need have in common.
#include "walk.h"

// What each event has before it, as bits.
static void find_predecessors(const struct plan *plan, uint32_t *predecessors)
{
    for (unsigned b = 0; b < plan->events; b++) {
        predecessors[b] = 0;
        for (unsigned a = 0; a < plan->events; a++)
            predecessors[b] |= (uint32_t)plan->before[a][b] << a;
    }
}

// Whether a set of events, given as bits, is a done set.
static int is_done_set(const struct plan *plan, const uint32_t *predecessors, uint32_t done)
{
    for (unsigned e = 0; e < plan->events; e++)
        if ((done >> e & 1) && (predecessors[e] & ~done) != 0)
            return 0;
    return 1;
}

// What a done set needs at the opening: its lack if the opening count were 0.
static int32_t need(const struct plan *plan, unsigned place, const uint32_t *predecessors, uint32_t done)
{
    int32_t tokens = 0, front = 0;

    for (unsigned e = 0; e < plan->events; e++) {
        if (done >> e & 1)
            tokens += (int32_t)plan_gives(plan, e, place) - (int32_t)plan_takes(plan, e, place);
        else if ((predecessors[e] & ~done) == 0)
            front += (int32_t)plan_takes(plan, e, place);
    }
    return front - tokens;
}

uint32_t walk_least(const struct plan *plan, unsigned place, uint8_t *done)
{
    uint32_t predecessors[WALK_EVENTS], common = 0;
    int32_t most = -1; // below what the empty set needs

    find_predecessors(plan, predecessors);
    for (uint32_t set = 0; set >> plan->events == 0; set++) {
        if (!is_done_set(plan, predecessors, set))
            continue;
        int32_t found = need(plan, place, predecessors, set);
        if (found > most) {
            most = found;
            common = set;
        } else if (found == most) {
            common &= set;
        }
    }
    for (unsigned e = 0; e < plan->events; e++)
        done[e] = common >> e & 1;
    return (uint32_t)most;
}
