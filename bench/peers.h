// The peers: max-flow libraries that work out the least opening count of every place of a plan.
#ifndef PEERS_H
#define PEERS_H

#include "plan.h"

// All get the flow network of the skeleton (document 003, definition 8) without the opening tokens. An event is split into top
// and bottom where it both takes and gives; elsewhere one node does, and the network is smaller.
#ifdef __cplusplus
extern "C" {
#endif

void lemon_least(const struct plan *plan, uint32_t *least);
void boost_least(const struct plan *plan, uint32_t *least);
void kolmogorov_least(const struct plan *plan, uint32_t *least);

#ifdef __cplusplus
}
#endif

// Above every sum of weights, and small enough that a few of them can be added.
enum { NO_LIMIT = 1 << 28 };

// Numbers the tops and bottoms; returns how many nodes there are.
static inline int number_nodes(const struct plan *plan, unsigned place, int *top, int *bottom)
{
    int nodes = 0;
    for (unsigned e = 0; e < plan->events; e++) {
        int split = plan_takes(plan, e, place) > 0 && plan_gives(plan, e, place) > 0;
        top[e] = nodes++;
        bottom[e] = split ? nodes++ : top[e];
    }
    return nodes;
}

#endif
