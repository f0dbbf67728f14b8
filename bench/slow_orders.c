// Orders on which a simple first choice of givers is wrong, so that many tokens have to be exchanged.
//
// All but the narrow middle and the long path have two rows: givers, none of which is before another, and takers likewise. Events
// are made such that a taker that draws from the nearest giver, by number, takes the tokens which a later taker has no other
// source of.
#include "orders.h"

enum { HALF = MAX_EVENTS / 2 };

static void two_halves(struct order *order)
{
    order_start(order, MAX_EVENTS);
    for (unsigned i = 0; i < MAX_EVENTS; i++)
        order->role[i] = i < HALF ? GIVER : TAKER;
}

static void set_roles(struct order *order, unsigned from, unsigned count, enum role role)
{
    for (unsigned i = 0; i < count; i++)
        order->role[from + i] = (uint8_t)role;
}

static void join_all(struct order *order, unsigned from, unsigned givers, unsigned to, unsigned takers)
{
    for (unsigned i = 0; i < givers; i++)
        for (unsigned j = 0; j < takers; j++)
            order_add(order, from + i, to + j);
}

// Many givers feed two takers that ten big givers could feed as well; three more takers have the many alone.
void order_fan_in(struct order *order, struct random *r)
{
    enum { BIG = 10, MANY = 180, SHARED = 2, LATE = 3, PADDING = 24 };
    unsigned many = BIG, padding = many + MANY, shared = padding + PADDING, late = shared + SHARED;

    (void)r;
    order_start(order, MAX_EVENTS);
    set_roles(order, 0, MAX_EVENTS, NEITHER);
    set_roles(order, 0, BIG, BIG_GIVER);
    set_roles(order, many, MANY, GIVER);
    set_roles(order, shared, SHARED + LATE, BIG_TAKER);
    join_all(order, 0, BIG, shared, SHARED);
    join_all(order, many, MANY, shared, SHARED + LATE);
    join_all(order, padding, PADDING, late, LATE); // so that the late ones also have more before them
}

// Four big givers could feed every taker in a row; each of these has a small giver that four big takers want.
void order_fan_out(struct order *order, struct random *r)
{
    enum { BIG = 4, MANY = 113 };
    unsigned small = BIG, takers = small + MANY, big_takers = takers + MANY;

    (void)r;
    order_start(order, MAX_EVENTS);
    set_roles(order, 0, MAX_EVENTS, NEITHER);
    set_roles(order, 0, BIG, BIG_GIVER);
    set_roles(order, small, MANY, GIVER);
    set_roles(order, takers, MANY, TAKER);
    set_roles(order, big_takers, BIG, BIG_TAKER);
    for (unsigned i = 0; i < MANY; i++)
        order_add(order, small + i, takers + i);
    join_all(order, 0, BIG, takers, MANY);
    join_all(order, small, MANY, big_takers, BIG);
}

// Eight small fans in: in each, small givers feed one taker that a big giver could feed; a second taker has the small ones alone.
void order_small_fans_in(struct order *order, struct random *r)
{
    enum { FANS = 8, MANY = 26, PADDING = 3 };
    unsigned small = FANS, padding = small + FANS * MANY, shared = padding + PADDING, late = shared + FANS;

    (void)r;
    order_start(order, MAX_EVENTS);
    set_roles(order, 0, MAX_EVENTS, NEITHER);
    set_roles(order, 0, FANS, BIG_GIVER);
    set_roles(order, small, FANS * MANY, GIVER);
    set_roles(order, shared, 2 * FANS, BIG_TAKER);
    for (unsigned fan = 0; fan < FANS; fan++) {
        order_add(order, fan, shared + fan);
        join_all(order, small + fan * MANY, MANY, shared + fan, 1);
        join_all(order, small + fan * MANY, MANY, late + fan, 1);
        join_all(order, padding, PADDING, late + fan, 1);
    }
}

// Eight small fans out: in each, a big giver could feed a row of takers; each has a small giver that one big taker wants.
void order_small_fans_out(struct order *order, struct random *r)
{
    enum { FANS = 8, MANY = 15 };
    unsigned small = FANS, takers = small + FANS * MANY, big_takers = takers + FANS * MANY;

    (void)r;
    order_start(order, MAX_EVENTS);
    set_roles(order, 0, FANS, BIG_GIVER);
    set_roles(order, small, FANS * MANY, GIVER);
    set_roles(order, takers, FANS * MANY, TAKER);
    set_roles(order, big_takers, FANS, BIG_TAKER);
    for (unsigned i = 0; i < FANS * MANY; i++) {
        order_add(order, i / MANY, takers + i);
        order_add(order, small + i, takers + i);
        order_add(order, small + i, big_takers + i / MANY);
    }
}

// Giver layers and taker layers; a giver may feed four takers of its own layer and four of the next. Exchanges have to run
// through all layers.
void order_alternating(struct order *order, struct random *r)
{
    unsigned width = 4u << random_below(r, 3), layers = HALF / width;

    two_halves(order);
    for (unsigned layer = 0; layer < layers; layer++)
        for (unsigned i = 0; i < width; i++)
            for (unsigned step = 0; step < 4; step++) {
                unsigned giver = layer * width + i, taker = HALF + layer * width + (i + step) % width;
                order_add(order, giver, taker);
                if (layer > 0)
                    order_add(order, giver, taker - width);
            }
}

static void band(struct order *order, unsigned width)
{
    two_halves(order);
    for (unsigned i = 0; i < HALF; i++)
        for (unsigned step = 0; step < width && i + step < HALF; step++)
            order_add(order, i, HALF + i + step);
}

// Giver i is before takers i to i + 7.
void order_band(struct order *order, struct random *r)
{
    (void)r;
    band(order, 8);
}

// Giver i is before takers i and i + 1.
void order_fence(struct order *order, struct random *r)
{
    (void)r;
    band(order, 2);
}

// Random pairs between two rows.
void order_two_rows(struct order *order, struct random *r)
{
    two_halves(order);
    while (order->pairs < MAX_PAIRS)
        order_add(order, random_below(r, HALF), HALF + random_below(r, HALF));
}

// 120 givers, 16 events that neither take nor give, 120 takers.
void order_middle(struct order *order, struct random *r)
{
    enum { SIDE = 120, MIDDLE = MAX_EVENTS - 2 * SIDE };

    order_start(order, MAX_EVENTS);
    set_roles(order, 0, SIDE, GIVER);
    set_roles(order, SIDE, MIDDLE, NEITHER);
    set_roles(order, SIDE + MIDDLE, SIDE, TAKER);
    while (order->pairs < MAX_PAIRS) {
        unsigned middle = SIDE + random_below(r, MIDDLE), side = random_below(r, SIDE);
        if (random_below(r, 2) == 0)
            order_add(order, side, middle);
        else
            order_add(order, middle, SIDE + MIDDLE + side);
    }
}

// Fences of 1, 2, 3, .. givers and takers: exchanges along paths of every length.
void order_paths(struct order *order, struct random *r)
{
    unsigned first = 0;

    (void)r;
    two_halves(order);
    for (unsigned length = 1; first + length <= HALF; length++) {
        for (unsigned i = 0; i < length; i++) {
            order_add(order, first + i, HALF + first + i);
            if (i > 0)
                order_add(order, first + i, HALF + first + i - 1);
        }
        first += length;
    }
}

// Givers i and i + 1 are before taker i. Each giver but the first, which is big, gives one token less than a taker takes. Drawn for
// from the last to the first, each taker leaves its neighbour just what that one needs; drawn for from the first on, each but the
// first lacks a token, which then has to be exchanged all along the path. So that the last has the fewest before it, the others
// stand behind a chain, half of which has the lowest numbers and half the highest.
void order_long_path(struct order *order, struct random *r)
{
    enum { PATH = 85, HALF_CHAIN = (PATH - 1) / 2, GIVERS = HALF_CHAIN, TAKERS = GIVERS + PATH + 1, HIGH = TAKERS + PATH };
    unsigned chain[2 * HALF_CHAIN];

    (void)r;
    order_start(order, HIGH + HALF_CHAIN);
    set_roles(order, 0, order->events, NEITHER);
    set_roles(order, GIVERS, 1, BIG_GIVER);
    set_roles(order, GIVERS + 1, PATH, FIXED_GIVER);
    set_roles(order, TAKERS, PATH, FIXED_TAKER);
    for (unsigned i = 0; i < PATH; i++)
        join_all(order, GIVERS + i, 2, TAKERS + i, 1);
    for (unsigned i = 0; i < 2 * HALF_CHAIN; i++) {
        chain[i] = i % 2 == 0 ? i / 2 : HIGH + i / 2;
        if (i > 0)
            order_add(order, chain[i - 1], chain[i]);
        order_add(order, chain[i], TAKERS + PATH - 2 - i);
    }
}
