// Prints how long a listing takes over the plan judgement, for each kind of sheet, and the bar.
#include "listing_table.h"

#include "listing.h"
#include "measure.h"

#include <stdio.h>

enum { BAR = 3 };

static double listing_ratio(const struct sheet *sheet)
{
    struct listing_times times = time_listing(sheet);

    return times.listing / times.judgement;
}

// With these the plan judgement stops early at every place, and the listing settles it to the end.
static void set_greatest_openings(struct sheet *sheet)
{
    uint32_t opening[MAX_PLACES];

    for (unsigned p = 0; p < MAX_PLACES; p++)
        opening[p] = MAX_OPENING;
    sheet_set_openings(sheet, opening, MAX_PLACES);
}

// Returns the worst ratio with the chosen opening counts.
static double list_kind(const struct kind *kind, unsigned sheets)
{
    static struct sheet sheet;
    double chosen[MAX_SHEETS], greatest[MAX_SHEETS];

    for (unsigned i = 0; i < sheets; i++) {
        sheet_of_kind(&sheet, kind, i);
        choose_openings(&sheet, i);
        chosen[i] = listing_ratio(&sheet);
        set_greatest_openings(&sheet);
        greatest[i] = listing_ratio(&sheet);
    }
    double middle = median(chosen, sheets), greatest_middle = median(greatest, sheets);
    printf("%-24s   %-8.2f %-8.2f %-8.2f %-8.2f\n", kind->name, middle, chosen[sheets - 1], greatest_middle, greatest[sheets - 1]);
    return chosen[sheets - 1];
}

void print_listing(unsigned sheets, int missed[GROUPS])
{
    if (!archive_present())
        return;
    printf("\nListing: its time over the plan judgement's, with opening counts that are just enough or one too few, and with the greatest\n");
    printf("%-24s   %-17s %d\n", "kind", "just enough", MAX_OPENING);
    printf("%-24s   %-8s %-8s %-8s %-8s\n", "", "median", "worst", "median", "worst");
    for (unsigned k = 0; k < kind_count; k++)
        missed[kinds[k].group] |= list_kind(&kinds[k], sheets) > BAR;
}

int print_listing_bar(const int missed[GROUPS])
{
    printf("Listing: at most %d times the plan judgement on sheets at the limits, with opening counts that just suffice or are one too few.\n",
           BAR);
    if (!archive_present()) {
        printf("not tried: it needs the archive\n");
        return 0;
    }
    for (int group = AT_THE_LIMITS; group <= MADE_TO_BE_SLOW; group++)
        printf("%s: %s\n", group_titles[group], missed[group] ? "missed" : "met");
    return missed[AT_THE_LIMITS] || missed[MADE_TO_BE_SLOW];
}
