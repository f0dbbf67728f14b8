// Makes sheets: weights and labels for an order, the numbering of its events, and the bytes.
#include "sheets.h"

#include <string.h>

// How weights are drawn; a sheet has one of these at all its places.
enum style { FULL, HALVES, ONE_SIDED, SMALL, TWO_SCALES, STYLES };

struct net {
    unsigned places, transitions;
    uint16_t takes[MAX_TRANSITIONS][MAX_PLACES], gives[MAX_TRANSITIONS][MAX_PLACES];
    uint8_t role[MAX_TRANSITIONS];
};

static unsigned draw_weight(struct random *r, enum style style, unsigned scale)
{
    switch (style) {
    case HALVES:
        return random_below(r, 2) == 0 ? 0 : random_below(r, scale + 1);
    case SMALL:
        return random_below(r, 4);
    case TWO_SCALES:
        return 1 + random_below(r, random_below(r, 2) == 0 ? 30 : MAX_WEIGHT);
    default:
        return random_below(r, scale + 1);
    }
}

// The weights of a transition whose role the kind leaves open.
static void any_weights(struct net *net, struct random *r, unsigned t, unsigned p, enum style style, unsigned scale)
{
    unsigned takes = draw_weight(r, style, scale), gives = draw_weight(r, style, scale);

    if (style == ONE_SIDED || style == TWO_SCALES) {
        if (random_below(r, 2) == 0)
            takes = 0;
        else
            gives = 0;
    }
    net->takes[t][p] = (uint16_t)takes;
    net->gives[t][p] = (uint16_t)gives;
}

static unsigned role_weight(struct random *r, enum role role, enum style style, unsigned scale)
{
    switch (role) {
    case BIG_GIVER:
    case BIG_TAKER:
        return MAX_WEIGHT - random_below(r, 100);
    case FIXED_GIVER:
        return MAX_WEIGHT - 1;
    case FIXED_TAKER:
        return MAX_WEIGHT;
    default:
        return 1 + draw_weight(r, style, scale) % MAX_WEIGHT;
    }
}

static void role_weights(struct net *net, struct random *r, unsigned t, unsigned p, enum style style, unsigned scale)
{
    enum role role = net->role[t];
    unsigned weight = role_weight(r, role, style, scale);

    net->gives[t][p] = (uint16_t)(role == GIVER || role == BIG_GIVER || role == FIXED_GIVER ? weight : 0);
    net->takes[t][p] = (uint16_t)(role == TAKER || role == BIG_TAKER || role == FIXED_TAKER ? weight : 0);
}

// At each place weights up to 1,000, or up to 10 at every third; where they are to be small, as beside big roles, up to 8.
static void make_weights(struct net *net, struct random *r, enum style style, int small)
{
    for (unsigned p = 0; p < net->places; p++) {
        unsigned scale = small ? 7 : random_below(r, 3) == 0 ? 10 : MAX_WEIGHT - 1;
        for (unsigned t = 0; t < net->transitions; t++) {
            if (net->role[t] == ANY)
                any_weights(net, r, t, p, style, scale);
            else
                role_weights(net, r, t, p, small ? FULL : style, scale);
        }
    }
}

// 003: a place between two transitions of a run, with weight 1; at every eighth place the last one also gives to the first.
static void make_workflow_weights(struct net *net, struct random *r)
{
    for (unsigned p = 0; p < net->places; p++) {
        unsigned giver = random_below(r, CYCLE - 1), taker = giver + 1 + random_below(r, CYCLE - 1 - giver);
        net->gives[giver][p] = 1;
        net->takes[taker][p] = 1;
        if (p % 8 == 0) {
            net->gives[CYCLE - 1][p] = 1;
            net->takes[0][p] = 1;
        }
    }
}

// Each role that occurs gets an equal part of the transitions. Returns whether a big role occurs.
static int make_roles(struct net *net, const struct order *order)
{
    uint8_t present[ROLES], found = 0, occurs[ROLES] = {0};

    for (unsigned e = 0; e < order->events; e++)
        occurs[order->role[e]] = 1;
    for (uint8_t role = 0; role < ROLES; role++)
        if (occurs[role])
            present[found++] = role;
    for (unsigned t = 0; t < net->transitions; t++)
        net->role[t] = found == 0 ? ANY : present[t % found];
    return occurs[BIG_GIVER];
}

static uint16_t random_label(const struct net *net, struct random *r, enum role role)
{
    unsigned t;

    do
        t = random_below(r, net->transitions);
    while (net->role[t] != role);
    return (uint16_t)t;
}

static void shuffle(uint16_t *row, unsigned count, struct random *r)
{
    for (unsigned i = count; i > 1; i--) {
        unsigned j = random_below(r, i);
        uint16_t kept = row[i - 1];
        row[i - 1] = row[j];
        row[j] = kept;
    }
}

static void put16(struct sheet *sheet, unsigned number)
{
    sheet->bytes[sheet->length++] = (uint8_t)number;
    sheet->bytes[sheet->length++] = (uint8_t)(number >> 8);
}

static void put32(struct sheet *sheet, unsigned number)
{
    put16(sheet, number & 0xffff);
    put16(sheet, number >> 16);
}

static void put_contents(struct sheet *sheet, const struct net *net, const struct order *order)
{
    const unsigned count[4] = {net->places, net->transitions, order->events, order->pairs};
    const unsigned size[4] = {4, 4 * net->places, 2, 4};
    unsigned start = 32;

    for (int i = 0; i < 4; i++) {
        put32(sheet, start);
        put32(sheet, count[i]);
        start += count[i] * size[i];
    }
}

// Events and pairs in the numbering of the kind.
static void put_order(struct sheet *sheet, const struct order *order, const uint16_t *label, enum numbering numbering, struct random *r)
{
    uint16_t number[MAX_EVENTS], event[MAX_EVENTS], pair[MAX_PAIRS];

    for (unsigned e = 0; e < order->events; e++)
        number[e] = (uint16_t)(numbering == BACKWARDS ? order->events - 1 - e : e);
    for (unsigned i = 0; i < order->pairs; i++)
        pair[i] = (uint16_t)i;
    if (numbering == SHUFFLED) {
        shuffle(number, order->events, r);
        shuffle(pair, order->pairs, r);
    }
    for (unsigned e = 0; e < order->events; e++)
        event[number[e]] = (uint16_t)e;
    for (unsigned i = 0; i < order->events; i++)
        put16(sheet, label[event[i]]);
    for (unsigned i = 0; i < order->pairs; i++) {
        put16(sheet, number[order->earlier[pair[i]]]);
        put16(sheet, number[order->later[pair[i]]]);
    }
}

static void write_sheet(struct sheet *sheet, const struct net *net, const struct order *order, const uint16_t *label,
                        enum numbering numbering, struct random *r)
{
    sheet->length = 0;
    put_contents(sheet, net, order);
    for (unsigned p = 0; p < net->places; p++)
        put32(sheet, 0);
    for (unsigned t = 0; t < net->transitions; t++) {
        for (unsigned p = 0; p < net->places; p++)
            put16(sheet, net->takes[t][p]);
        for (unsigned p = 0; p < net->places; p++)
            put16(sheet, net->gives[t][p]);
    }
    put_order(sheet, order, label, numbering, r);
}

static void net_start(struct net *net, unsigned places, unsigned transitions)
{
    memset(net, 0, sizeof *net);
    net->places = places;
    net->transitions = transitions;
}

static void make_sheet(struct sheet *sheet, const struct order *order, unsigned places, int workflow, enum numbering numbering,
                       unsigned number, struct random *r)
{
    static struct net net;
    uint16_t label[MAX_EVENTS];

    net_start(&net, places, MAX_TRANSITIONS);
    int has_big = make_roles(&net, order);
    if (workflow)
        make_workflow_weights(&net, r);
    else
        make_weights(&net, r, number % STYLES, has_big);
    for (unsigned e = 0; e < order->events; e++)
        label[e] = workflow ? (uint16_t)(e % CYCLE) : random_label(&net, r, order->role[e]);
    write_sheet(sheet, &net, order, label, numbering, r);
}

void sheet_of_kind(struct sheet *sheet, const struct kind *kind, unsigned number)
{
    static struct order order;
    struct random r = {1000 * (uint64_t)(kind - kinds) + number};

    kind->make(&order, &r);
    make_sheet(sheet, &order, MAX_PLACES, kind_is_workflow(kind) && number % 2 == 0, kind->numbering, number, &r);
}

void sheet_of_size(struct sheet *sheet, unsigned places, unsigned events, unsigned pairs, unsigned number)
{
    static struct order order;
    struct random r = {1000000 + ((uint64_t)places * 1024 + events) * 2048 + pairs + (uint64_t)number * 1000000000};

    order_random(&order, &r, events, pairs);
    make_sheet(sheet, &order, places, 0, SHUFFLED, number, &r);
}

void sheet_small(struct sheet *sheet, const struct order *order, unsigned places, unsigned transitions, unsigned number, struct random *r)
{
    static struct net net;
    uint16_t label[MAX_EVENTS];

    net_start(&net, places, transitions);
    make_weights(&net, r, number % 2 == 0 ? SMALL : HALVES, 1);
    for (unsigned e = 0; e < order->events; e++)
        label[e] = random_label(&net, r, ANY);
    write_sheet(sheet, &net, order, label, SHUFFLED, r);
}

void sheet_set_openings(struct sheet *sheet, const uint32_t *opening, unsigned places)
{
    size_t length = sheet->length;

    sheet->length = 32;
    for (unsigned p = 0; p < places; p++)
        put32(sheet, opening[p]);
    sheet->length = length;
}
