// The kinds of order that the benchmark's sheets have.
#ifndef ORDERS_H
#define ORDERS_H

#include "plan.h"
#include "random.h"

// What an event is for, where the kind says so. A fixed giver gives one token less than a fixed taker takes.
enum role { ANY, GIVER, TAKER, NEITHER, BIG_GIVER, BIG_TAKER, FIXED_GIVER, FIXED_TAKER, ROLES };

struct order {
    unsigned events, pairs;
    uint16_t earlier[MAX_PAIRS], later[MAX_PAIRS];
    uint8_t related[MAX_EVENTS][MAX_EVENTS];
    uint8_t role[MAX_EVENTS];
};

// Numbering of the events and the pairs in the sheet.
enum numbering { SHUFFLED, AS_MADE, BACKWARDS };

enum group { AT_THE_LIMITS, MADE_TO_BE_SLOW, FEW_PAIRS, EVERYDAY, EVERYDAY_REPEATED, GROUPS };
extern const char *const group_titles[GROUPS];

struct kind {
    const char *name;
    enum group group;
    enum numbering numbering;
    void (*make)(struct order *order, struct random *r);
};

// All but the everyday kinds, which are in everyday.c.
extern const struct kind kinds[];
extern const unsigned kind_count;

// A random order with these numbers of events and pairs.
void order_random(struct order *order, struct random *r, unsigned events, unsigned pairs);

// The two kinds of 003 have their own net.
int kind_is_workflow(const struct kind *kind);
enum { CYCLE = 42 }; // events in one run of the workflow

// Parts for the makers. A pair that is there already, either way round, or beyond the limit isn't added.
void order_start(struct order *order, unsigned events);
int order_add(struct order *order, unsigned earlier, unsigned later);

// Makers of the kinds that are meant to be slow, in slow_orders.c.
void order_fan_in(struct order *order, struct random *r);
void order_fan_out(struct order *order, struct random *r);
void order_small_fans_in(struct order *order, struct random *r);
void order_small_fans_out(struct order *order, struct random *r);
void order_alternating(struct order *order, struct random *r);
void order_band(struct order *order, struct random *r);
void order_two_rows(struct order *order, struct random *r);
void order_middle(struct order *order, struct random *r);
void order_fence(struct order *order, struct random *r);
void order_paths(struct order *order, struct random *r);
void order_long_path(struct order *order, struct random *r);

#endif
