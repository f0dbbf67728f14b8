// Kolmogorov's maxflow as a peer. Source and sink are in the library's nodes.
#include "peers.h"

#include <maxflow-3.0/maxflow/graph.h>

typedef maxflow::Graph<int, int, int> Graph;

static uint32_t least_at(const struct plan *plan, unsigned place, Graph &graph)
{
    int top[MAX_EVENTS], bottom[MAX_EVENTS];
    uint32_t sum = 0;

    graph.reset();
    graph.add_node(number_nodes(plan, place, top, bottom));
    for (unsigned e = 0; e < plan->events; e++) {
        int takes = (int)plan_takes(plan, e, place), gives = (int)plan_gives(plan, e, place);
        sum += (uint32_t)takes;
        if (top[e] == bottom[e]) {
            graph.add_tweights(top[e], gives, takes);
        } else {
            graph.add_tweights(top[e], 0, takes);
            graph.add_tweights(bottom[e], gives, 0);
            graph.add_edge(top[e], bottom[e], NO_LIMIT, 0);
        }
    }
    for (unsigned i = 0; i < plan->arcs; i++)
        graph.add_edge(bottom[plan->arc_from[i]], top[plan->arc_to[i]], NO_LIMIT, 0);
    return sum - (uint32_t)graph.maxflow();
}

void kolmogorov_least(const struct plan *plan, uint32_t *least)
{
    Graph graph(2 * (int)plan->events + 1, (int)(plan->events + plan->arcs) + 1);

    for (unsigned p = 0; p < plan->places; p++)
        least[p] = plan->events == 0 ? 0 : least_at(plan, p, graph);
}
