// An independent judge: Dinic's algorithm for each place, on the flow network of the skeleton.
//
// Each event has a top, where tokens come in, and a bottom, where tokens go out. Arcs: source to bottom with what the event
// gives, top to sink with what it takes, top to bottom and bottom to the next event's top without limit. The takes that no
// given token reaches have to be there at the opening: least opening count = all takes - greatest flow.
#include "independent.h"

#include <string.h>

enum { NODES = 2 * MAX_EVENTS + 2, ARCS = 2 * (3 * MAX_EVENTS + MAX_PAIRS), NONE = -1, UNLIMITED = 1 << 30 };

struct network {
    int source, sink, nodes, arcs;
    int first[NODES], next_arc[ARCS], head[ARCS], left[ARCS]; // arc i and arc i ^ 1 are each other's reverse
    int level[NODES], current[NODES];
};

static void add_arc(struct network *net, int from, int to, int capacity)
{
    for (int way = 0; way < 2; way++) {
        int i = net->arcs++;
        net->head[i] = way == 0 ? to : from;
        net->left[i] = way == 0 ? capacity : 0;
        net->next_arc[i] = net->first[way == 0 ? from : to];
        net->first[way == 0 ? from : to] = i;
    }
}

// Returns the sum of all takes.
static uint32_t build(struct network *net, const struct plan *plan, unsigned place)
{
    int n = (int)plan->events;
    uint32_t sum = 0;

    net->source = 2 * n;
    net->sink = 2 * n + 1;
    net->nodes = 2 * n + 2;
    net->arcs = 0;
    for (int v = 0; v < net->nodes; v++)
        net->first[v] = NONE;
    for (int e = 0; e < n; e++) {
        unsigned takes = plan_takes(plan, (unsigned)e, place), gives = plan_gives(plan, (unsigned)e, place);
        sum += takes;
        if (takes > 0)
            add_arc(net, e, net->sink, (int)takes);
        if (gives > 0)
            add_arc(net, net->source, n + e, (int)gives);
        add_arc(net, e, n + e, UNLIMITED);
    }
    for (unsigned i = 0; i < plan->arcs; i++)
        add_arc(net, n + plan->arc_from[i], plan->arc_to[i], UNLIMITED);
    return sum;
}

// Levels of all nodes from which the sink can be reached by arcs with something left, as distances to it.
static void find_levels(struct network *net)
{
    int queue[NODES], head = 0, tail = 0;

    for (int v = 0; v < net->nodes; v++)
        net->level[v] = NONE;
    net->level[net->sink] = 0;
    queue[tail++] = net->sink;
    while (head < tail) {
        int v = queue[head++];
        for (int i = net->first[v]; i != NONE; i = net->next_arc[i]) {
            int u = net->head[i];
            if (net->left[i ^ 1] > 0 && net->level[u] == NONE) {
                net->level[u] = net->level[v] + 1;
                queue[tail++] = u;
            }
        }
    }
}

// Sends at most `most` from v to the sink, one level at a time.
static int send_on(struct network *net, int v, int most)
{
    int sent = 0;

    if (v == net->sink)
        return most;
    for (; net->current[v] != NONE; net->current[v] = net->next_arc[net->current[v]]) {
        int i = net->current[v], u = net->head[i];
        if (net->left[i] == 0 || net->level[u] == NONE || net->level[u] + 1 != net->level[v])
            continue;
        int part = most - sent < net->left[i] ? most - sent : net->left[i];
        part = send_on(net, u, part);
        net->left[i] -= part;
        net->left[i ^ 1] += part;
        sent += part;
        if (sent == most)
            break;
    }
    return sent;
}

uint32_t independent_least(const struct plan *plan, unsigned place, uint8_t *done)
{
    static struct network net;
    uint32_t least = build(&net, plan, place);

    for (find_levels(&net); net.level[net.source] != NONE; find_levels(&net)) {
        memcpy(net.current, net.first, sizeof net.current);
        least -= (uint32_t)send_on(&net, net.source, UNLIMITED);
    }
    // What can still reach the sink is the smallest sink side of a least cut; its bottoms are the done set.
    for (unsigned e = 0; done != NULL && e < plan->events; e++)
        done[e] = net.level[plan->events + e] != NONE;
    return least;
}

uint32_t independent_judge(const uint8_t *sheet, size_t length, uint32_t *missing)
{
    static struct plan plan;
    uint32_t fault = plan_read(sheet, length, &plan);

    for (unsigned p = 0; fault == 0 && p < plan.places; p++) {
        uint32_t least = independent_least(&plan, p, NULL);
        missing[p] = least > plan.opening[p] ? least - plan.opening[p] : 0;
    }
    return fault;
}

uint32_t independent_till(const uint8_t *sheet, size_t length)
{
    uint32_t missing[MAX_PLACES] = {0};
    uint32_t fault = independent_judge(sheet, length, missing);

    for (uint32_t p = 0; fault == 0 && p < MAX_PLACES; p++)
        if (missing[p] > 0)
            return 1000 + p;
    return fault;
}
