// Orders at the limits: random ones, layers, chains, grids, dense closures, and the thin and dense kinds of document 003.
#include "orders.h"

#include <string.h>

void order_start(struct order *order, unsigned events)
{
    memset(order, 0, sizeof *order);
    order->events = events;
}

int order_add(struct order *order, unsigned a, unsigned b)
{
    if (a == b || order->pairs == MAX_PAIRS || order->related[a][b] || order->related[b][a])
        return 0;
    order->related[a][b] = 1;
    order->earlier[order->pairs] = (uint16_t)a;
    order->later[order->pairs] = (uint16_t)b;
    order->pairs++;
    return 1;
}

// Random pairs until there are `pairs`; the lower number is the earlier event.
static void fill(struct order *order, struct random *r, unsigned pairs)
{
    while (order->pairs < pairs) {
        unsigned a = random_below(r, order->events), b = random_below(r, order->events);
        order_add(order, a < b ? a : b, a < b ? b : a);
    }
}

void order_random(struct order *order, struct random *r, unsigned events, unsigned pairs)
{
    order_start(order, events);
    fill(order, r, pairs);
}

static void full_random(struct order *order, struct random *r)
{
    order_random(order, r, MAX_EVENTS, MAX_PAIRS);
}

// Random pairs between neighbouring layers.
static void layers(struct order *order, struct random *r, unsigned width)
{
    order_start(order, MAX_EVENTS);
    while (order->pairs < MAX_PAIRS) {
        unsigned base = random_below(r, MAX_EVENTS / width - 1) * width;
        order_add(order, base + random_below(r, width), base + width + random_below(r, width));
    }
}

static void narrow_layers(struct order *order, struct random *r)
{
    layers(order, r, 16);
}

static void wide_layers(struct order *order, struct random *r)
{
    layers(order, r, 64);
}

// Threads side by side, event i before event i + width.
static void chains(struct order *order, unsigned width)
{
    order_start(order, MAX_EVENTS);
    for (unsigned i = MAX_EVENTS - 1; i >= width; i--)
        order_add(order, i - width, i);
}

static void one_chain(struct order *order, struct random *r)
{
    (void)r;
    chains(order, 1);
}

static void eight_chains(struct order *order, struct random *r)
{
    chains(order, 8);
    fill(order, r, MAX_PAIRS);
}

static void grid_steps(struct order *order, int down, int right)
{
    for (int row = 0; row + down < 16; row++)
        for (int column = 0; column + right < 16; column++)
            order_add(order, (unsigned)(16 * row + column), (unsigned)(16 * (row + down) + column + right));
}

static void grid(struct order *order, struct random *r)
{
    (void)r;
    order_start(order, MAX_EVENTS);
    grid_steps(order, 0, 1);
    grid_steps(order, 1, 0);
}

// The grid with longer steps, which the order implies.
static void full_grid(struct order *order, struct random *r)
{
    grid(order, r);
    grid_steps(order, 1, 1);
    grid_steps(order, 2, 1);
    grid_steps(order, 1, 2); // as many as fit
}

// A chain with pairs that it implies.
static void dense_chain(struct order *order, struct random *r)
{
    chains(order, 1);
    fill(order, r, MAX_PAIRS);
}

// Every pair of a chain of 45 events is given: 990 pairs.
static void whole_closure(struct order *order, struct random *r)
{
    (void)r;
    order_start(order, 45);
    for (unsigned a = 0; a < order->events; a++)
        for (unsigned b = a + 1; b < order->events; b++)
            order_add(order, a, b);
}

// One run of a workflow: a first event, four threads of ten with some order between them, a last event.
static void workflow(struct order *order, struct random *r, unsigned base)
{
    for (unsigned thread = 0; thread < 4; thread++) {
        unsigned first = base + 1 + 10 * thread;
        order_add(order, base, first);
        for (unsigned i = 0; i < 9; i++)
            order_add(order, first + i, first + i + 1);
        order_add(order, first + 9, base + CYCLE - 1);
    }
    for (unsigned i = 0; i < 12; i++) {
        unsigned step = random_below(r, 9), from = random_below(r, 4), to = random_below(r, 4);
        if (from != to)
            order_add(order, base + 1 + 10 * from + step, base + 2 + 10 * to + step);
    }
}

// 003, experiments: copies of one run, `threads` of them side by side.
static void workflows(struct order *order, struct random *r, unsigned threads)
{
    unsigned copies = MAX_EVENTS / CYCLE;

    order_start(order, copies * CYCLE);
    for (unsigned c = 0; c < copies; c++)
        workflow(order, r, c * CYCLE);
    for (unsigned c = 0; c + threads < copies; c++)
        order_add(order, c * CYCLE + CYCLE - 1, (c + threads) * CYCLE);
}

static void thin(struct order *order, struct random *r)
{
    workflows(order, r, 3);
}

static void dense(struct order *order, struct random *r)
{
    workflows(order, r, 1);
}

int kind_is_workflow(const struct kind *kind)
{
    return kind->make == thin || kind->make == dense;
}

const char *const group_titles[GROUPS] = {
    "Sheets at the limits",
    "Sheets at the limits, made to be slow",
    "Sheets with as many places and events but few pairs, made to be slow",
    "Everyday sheets",
    "The same, each judged again and again",
};

const struct kind kinds[] = {
    {"random order", AT_THE_LIMITS, SHUFFLED, full_random},
    {"narrow layers", AT_THE_LIMITS, SHUFFLED, narrow_layers},
    {"wide layers", AT_THE_LIMITS, SHUFFLED, wide_layers},
    {"chain, backwards", AT_THE_LIMITS, BACKWARDS, one_chain},
    {"eight chains, backwards", AT_THE_LIMITS, BACKWARDS, eight_chains},
    {"grid", AT_THE_LIMITS, SHUFFLED, grid},
    {"grid, long steps", AT_THE_LIMITS, SHUFFLED, full_grid},
    {"dense chain", AT_THE_LIMITS, SHUFFLED, dense_chain},
    {"whole closure", AT_THE_LIMITS, SHUFFLED, whole_closure},
    {"thin, of 003", AT_THE_LIMITS, SHUFFLED, thin},
    {"dense, of 003", AT_THE_LIMITS, SHUFFLED, dense},
    {"fan in", MADE_TO_BE_SLOW, AS_MADE, order_fan_in},
    {"fan out", MADE_TO_BE_SLOW, AS_MADE, order_fan_out},
    {"alternating layers", MADE_TO_BE_SLOW, AS_MADE, order_alternating},
    {"band", MADE_TO_BE_SLOW, AS_MADE, order_band},
    {"two rows", MADE_TO_BE_SLOW, SHUFFLED, order_two_rows},
    {"narrow middle", MADE_TO_BE_SLOW, SHUFFLED, order_middle},
    {"fence", FEW_PAIRS, SHUFFLED, order_fence},
    {"alternating paths", FEW_PAIRS, AS_MADE, order_paths},
    {"small fans in", FEW_PAIRS, AS_MADE, order_small_fans_in},
    {"small fans out", FEW_PAIRS, AS_MADE, order_small_fans_out},
    {"long path", FEW_PAIRS, AS_MADE, order_long_path},
};
const unsigned kind_count = sizeof kinds / sizeof *kinds;
