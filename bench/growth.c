// Prints how the time of a sheet grows when its events, its pairs or its places double.
#include "growth.h"

#include "measure.h"

#include <stdio.h>

// The medians at one size; counts sheets that aren't judged alike.
static void at_size(unsigned places, unsigned events, unsigned pairs, unsigned sheets, double *time, double *over, unsigned *differ)
{
    static struct sheet sheet;
    double all_times[MAX_SHEETS], ratios[MAX_SHEETS];

    for (unsigned i = 0; i < sheets; i++) {
        sheet_of_size(&sheet, places, events, pairs, i);
        struct times times = measure(&sheet, i, 1);
        all_times[i] = times.archive;
        ratios[i] = ratio(&times);
        *differ += !times.agree;
    }
    *time = median(all_times, sheets);
    *over = median(ratios, sheets);
}

static unsigned series(const char *what, int events_grow, int pairs_grow, int places_grow, unsigned sheets)
{
    double first = 0, previous = 0, time, over;
    unsigned differ = 0;

    printf("\n%-8s %10s %10s %14s\n", what, "to first", "to last", "to the peer");
    for (int halvings = 4; halvings >= 0; halvings--) {
        unsigned events = (unsigned)MAX_EVENTS >> (events_grow ? halvings : 0);
        unsigned pairs = (unsigned)MAX_PAIRS >> (events_grow || pairs_grow ? halvings : 0);
        unsigned places = (unsigned)MAX_PLACES >> (places_grow ? halvings : 0);
        at_size(places, events, pairs, sheets, &time, &over, &differ);
        if (halvings == 4)
            first = previous = time;
        printf("%-8u %10.2f %10.2f %14.2f\n", events_grow ? events : pairs_grow ? pairs : places, time / first, time / previous, over);
        previous = time;
    }
    return differ;
}

unsigned print_growth(unsigned sheets)
{
    unsigned differ = 0;

    if (sheets > MAX_SHEETS)
        sheets = MAX_SHEETS;
    printf("\nGrowth of the archive's time on random orders, otherwise at the limits: over the first row's, over the row's before it, and\n"
           "over the fastest peer's time on the same sheets. Medians. With the events, the pairs grow too, four for each event.\n");
    differ += series("events", 1, 0, 0, sheets);
    differ += series("pairs", 0, 1, 0, sheets);
    differ += series("places", 0, 0, 1, sheets);
    return differ;
}
