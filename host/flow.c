// An independent check of a flow at a place: document 01's rules 1 to 4, as they are written, with sums that can't wrap.
#include "flow.h"

enum { RULE_1 = 1, RULE_2 = 2, RULE_3 = 4, RULE_4 = 8 };

struct sums {
    uint64_t in[MAX_EVENTS], out[MAX_EVENTS], shares;
};

static void add_up(struct sums *sums, const struct plan *plan, const uint32_t *row)
{
    const uint32_t *share = row + plan->pairs;

    sums->shares = 0;
    for (unsigned e = 0; e < plan->events; e++) {
        sums->in[e] = share[e];
        sums->out[e] = 0;
        sums->shares += share[e];
    }
    for (unsigned i = 0; i < plan->pairs; i++) {
        sums->in[plan->later[i]] += row[i];
        sums->out[plan->earlier[i]] += row[i];
    }
}

static int is_skeleton_pair(const struct plan *plan, unsigned pair)
{
    for (unsigned e = 0; e < plan->events; e++)
        if (plan->before[plan->earlier[pair]][e] && plan->before[e][plan->later[pair]])
            return 0;
    return 1;
}

unsigned flow_broken(const struct plan *plan, unsigned place, const uint32_t *row)
{
    struct sums sums;
    unsigned broken = 0;

    add_up(&sums, plan, row);
    for (unsigned e = 0; e < plan->events; e++) {
        unsigned takes = plan_takes(plan, e, place), gives = plan_gives(plan, e, place);
        if (sums.in[e] < takes)
            broken |= RULE_1;
        if (sums.out[e] + takes > sums.in[e] + gives)
            broken |= RULE_2;
    }
    if (sums.shares > plan->opening[place])
        broken |= RULE_3;
    for (unsigned i = 0; i < plan->pairs; i++)
        if (row[i] != 0 && !is_skeleton_pair(plan, i))
            broken |= RULE_4;
    return broken;
}
