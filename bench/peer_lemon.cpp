// LEMON's preflow as a peer.
#include "peers.h"

#include <lemon/preflow.h>
#include <lemon/smart_graph.h>

#include <vector>

typedef lemon::SmartDigraph Graph;

static uint32_t least_at(const struct plan *plan, unsigned place)
{
    int top[MAX_EVENTS], bottom[MAX_EVENTS];
    int nodes = number_nodes(plan, place, top, bottom), source = nodes, sink = nodes + 1;
    Graph graph;
    std::vector<int> capacities;
    uint32_t sum = 0;

    graph.reserveNode(nodes + 2);
    graph.reserveArc(3 * plan->events + plan->arcs);
    capacities.reserve(3 * plan->events + plan->arcs);
    for (int v = 0; v < nodes + 2; v++)
        graph.addNode();
    auto add = [&](int from, int to, int capacity) {
        graph.addArc(graph.nodeFromId(from), graph.nodeFromId(to));
        capacities.push_back(capacity);
    };
    for (unsigned e = 0; e < plan->events; e++) {
        unsigned takes = plan_takes(plan, e, place), gives = plan_gives(plan, e, place);
        sum += takes;
        if (takes > 0)
            add(top[e], sink, (int)takes);
        if (gives > 0)
            add(source, bottom[e], (int)gives);
        if (top[e] != bottom[e])
            add(top[e], bottom[e], NO_LIMIT);
    }
    for (unsigned i = 0; i < plan->arcs; i++)
        add(bottom[plan->arc_from[i]], top[plan->arc_to[i]], NO_LIMIT);

    Graph::ArcMap<int> capacity(graph);
    for (int i = 0; i < (int)capacities.size(); i++)
        capacity[graph.arcFromId(i)] = capacities[i];
    lemon::Preflow<Graph> preflow(graph, capacity, graph.nodeFromId(source), graph.nodeFromId(sink));
    preflow.runMinCut(); // the value alone: the second phase isn't needed
    return sum - (uint32_t)preflow.flowValue();
}

void lemon_least(const struct plan *plan, uint32_t *least)
{
    for (unsigned p = 0; p < plan->places; p++)
        least[p] = least_at(plan, p);
}
