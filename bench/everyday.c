// Makes everyday sheets, as a theatre's desk writes them: a few places, a dozen events or some more, one or two pairs an event.
#include "everyday.h"

enum { FEWEST = 3, DOZEN = 12, FORTY = 40, SEED = 500000 };

// A number from `least` to `most`.
static unsigned draw(struct random *r, unsigned least, unsigned most)
{
    return least + random_below(r, most - least + 1);
}

// One to two pairs an event between any two, or as many as there can be.
static void scattered(struct order *order, struct random *r, unsigned events)
{
    unsigned pairs = draw(r, events, 2 * events), most = events * (events - 1) / 2;

    order_random(order, r, events, pairs < most ? pairs : most);
}

// Two to four threads side by side, and here and there one waits for another.
static void threads(struct order *order, struct random *r, unsigned events)
{
    unsigned width = draw(r, 2, 4);

    order_start(order, events);
    for (unsigned e = width; e < events; e++)
        order_add(order, e - width, e);
    for (unsigned i = draw(r, 1, events / 2); i > 0; i--) {
        unsigned a = random_below(r, events), b = random_below(r, events);
        order_add(order, a < b ? a : b, a < b ? b : a);
    }
}

static void everyday(struct order *order, struct random *r)
{
    unsigned events = draw(r, FEWEST, FORTY);

    if (random_below(r, 2) == 0)
        scattered(order, r, events);
    else
        threads(order, r, events);
}

const struct kind everyday_kinds[] = {
    {"everyday", EVERYDAY, SHUFFLED, everyday},
    {"everyday, repeated", EVERYDAY_REPEATED, SHUFFLED, everyday},
};
const unsigned everyday_count = sizeof everyday_kinds / sizeof *everyday_kinds;

void everyday_sheet(struct sheet *sheet, const struct kind *kind, unsigned number)
{
    static struct order order;
    struct random r = {SEED + number}; // both kinds have the same sheets

    kind->make(&order, &r);
    unsigned places = draw(&r, FEWEST, DOZEN), transitions = draw(&r, 2, DOZEN);
    sheet_small(sheet, &order, places, transitions, number, &r);
}
