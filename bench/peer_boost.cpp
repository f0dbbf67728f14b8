// Boost's push-relabel as a peer. The graph is built once for a plan, which is faster here than building it for each place;
// so every event is split, and a capacity may be 0.
#include "peers.h"

#include <boost/graph/adjacency_list.hpp>
#include <boost/graph/push_relabel_max_flow.hpp>

#include <vector>

using namespace boost;

typedef adjacency_list_traits<vecS, vecS, directedS> Traits;
typedef Traits::edge_descriptor Edge;
typedef property<edge_capacity_t, int, property<edge_residual_capacity_t, int, property<edge_reverse_t, Edge>>> Properties;
typedef adjacency_list<vecS, vecS, directedS, no_property, Properties> Graph;

static void add(Graph &graph, int from, int to, int capacity)
{
    Edge there = add_edge(from, to, graph).first, back = add_edge(to, from, graph).first;
    put(edge_capacity, graph, there, capacity);
    put(edge_capacity, graph, back, 0);
    put(edge_reverse, graph, there, back);
    put(edge_reverse, graph, back, there);
}

void boost_least(const struct plan *plan, uint32_t *least)
{
    int n = (int)plan->events, source = 2 * n, sink = 2 * n + 1;
    Graph graph(2 * n + 2);
    std::vector<Edge> taking(n), giving(n);

    for (int e = 0; e < n; e++) {
        add(graph, e, sink, 0);
        add(graph, source, n + e, 0);
        add(graph, e, n + e, NO_LIMIT);
    }
    for (unsigned i = 0; i < plan->arcs; i++)
        add(graph, n + plan->arc_from[i], plan->arc_to[i], NO_LIMIT);
    for (int e = 0; e < n; e++) {
        taking[e] = edge(e, sink, graph).first;
        giving[e] = edge(source, n + e, graph).first;
    }
    for (unsigned p = 0; p < plan->places; p++) {
        uint32_t sum = 0;
        for (int e = 0; e < n; e++) {
            sum += plan_takes(plan, e, p);
            put(edge_capacity, graph, taking[e], (int)plan_takes(plan, e, p));
            put(edge_capacity, graph, giving[e], (int)plan_gives(plan, e, p));
        }
        least[p] = sum - (uint32_t)push_relabel_max_flow(graph, source, sink);
    }
}
