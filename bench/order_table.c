// Prints how long working out "before" and judging the faults of a sheet take, for each kind, in three ways and by the archive.
#include "order_table.h"

#include "kinds.h"
#include "order_times.h"

#include <stdio.h>

enum { FEWEST_CALLS = 10, COLUMNS = 2 * WAYS + 2 };

// The columns of one sheet: microseconds, and last the archive's fault call over the fault in order.
static void fill_row(double *row, const struct order_times *times)
{
    for (int way = 0; way < WAYS; way++) {
        row[way] = 1e6 * times->closing[way];
        row[WAYS + way] = 1e6 * times->fault[way];
    }
    row[2 * WAYS] = 1e6 * times->archive;
    row[2 * WAYS + 1] = times->archive / times->fault[IN_ORDER];
}

static unsigned print_kind(const struct kind *kind, unsigned sheets)
{
    static struct sheet sheet;
    static double columns[COLUMNS][MOST_SHEETS];
    double row[COLUMNS];
    unsigned differ = 0, calls = calls_of(kind) > FEWEST_CALLS ? calls_of(kind) : FEWEST_CALLS;

    for (unsigned i = 0; i < sheets; i++) {
        any_sheet(&sheet, kind, i);
        struct order_times times = time_order(&sheet, calls);
        fill_row(row, &times);
        for (int column = 0; column < COLUMNS; column++)
            columns[column][i] = row[column];
        if (!times.agree)
            printf("differ: %s, sheet %u\n", kind->name, i);
        differ += !times.agree;
    }
    printf("%-24s", kind->name);
    for (int column = 0; column < COLUMNS - (archive_present() ? 0 : 2); column++)
        printf("%s %8.2f", column % WAYS == 0 && column <= WAYS ? "  " : "", median(columns[column], sheets));
    printf("\n");
    return differ;
}

static void print_ways(void)
{
    printf("  ");
    for (int way = 0; way < WAYS; way++)
        printf(" %8s", way_names[way]);
}

unsigned print_order(unsigned sheets)
{
    unsigned differ = 0;

    printf("\nOrder: microseconds to work out what is before and after each event, with marks in bytes by Warshall, in words by Warshall, and in words in an\n"
           "order of the events, and for that order alone; to judge the faults of the sheet in C with each of these and by the archive; and the archive's\n"
           "time over that in C with rows in the order. Medians.\n");
    printf("%-24s   %-*s%s\n%-24s", "kind", 9 * WAYS + 3, "before and after", "fault", "");
    print_ways();
    print_ways();
    printf(archive_present() ? " %8s %8s\n" : "\n", "archive", "over C");
    for (unsigned k = 0; k < all_kinds(); k++)
        differ += print_kind(kind_at(k), sheets_of(kind_at(k), sheets));
    return differ;
}
