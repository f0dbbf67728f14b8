// The benchmark: ratios of the archive's time to its peers' for each kind of sheet, of a listing's to the plan judgement's, of mending to judging
// faults, times of the order, ratios to an earlier archive, the bars, and the growth.
#include "earlier.h"
#include "growth.h"
#include "kinds.h"
#include "listing_table.h"
#include "mending_table.h"
#include "order_table.h"
#include "words.h"

#include <stdio.h>
#include <stdlib.h>

// Over the fastest library's time.
static const struct {
    double median, worst;
} bars[GROUPS] = {{1, 2}, {1, 2}, {1, 2}, {0.6, 1}, {0.6, 1}};

struct summary {
    unsigned sheets, differ; // judged, and of these judged differently by different judges
    int missed[GROUPS];      // whether a kind of the group misses the bar
    int listing_missed[GROUPS];
};

static void print_head(enum group group)
{
    const char *peer = libraries_present() > 0 ? "fastest library" : "independent";

    printf("\n%s\n%-24s %6s   %-17s %-17s %s\n", group_titles[group], "kind", "pairs", peer, "independent", "fastest library");
    printf("%-24s %6s   %-8s %-8s %-8s %-8s\n", "", "", "median", "worst", "median", "worst");
}

static void print_fastest(const unsigned *wins, unsigned sheets)
{
    for (int i = 0; i < LIBRARIES; i++)
        if (wins[i] > 0)
            printf(" %s %u of %u", libraries[i].name, wins[i], sheets);
    printf("\n");
}

static void judge_kind(const struct kind *kind, unsigned sheets, struct summary *summary)
{
    static struct sheet sheet;
    static double over_peer[MOST_SHEETS], over_independent[MOST_SHEETS];
    unsigned wins[LIBRARIES] = {0}, pairs = 0;

    for (unsigned i = 0; i < sheets; i++) {
        any_sheet(&sheet, kind, i);
        struct times times = measure(&sheet, i, calls_of(kind));
        over_peer[i] = ratio(&times);
        over_independent[i] = times.archive / times.independent;
        if (times.fastest >= 0)
            wins[times.fastest]++;
        if (!times.agree)
            printf("differ: %s, sheet %u\n", kind->name, i);
        summary->differ += !times.agree;
        summary->sheets++;
        pairs += get32(sheet.bytes + 28);
    }
    double middle = median(over_peer, sheets), independent = median(over_independent, sheets);
    printf("%-24s %6u   %-8.2f %-8.2f %-8.2f %-8.2f", kind->name, pairs / sheets, middle, over_peer[sheets - 1], independent,
           over_independent[sheets - 1]);
    print_fastest(wins, sheets);
    summary->missed[kind->group] |= middle > bars[kind->group].median || over_peer[sheets - 1] > bars[kind->group].worst;
}

// Each group apart. Returns whether the bar is missed on sheets that it is set for, timed as the others are: all but those with few pairs and those
// that are judged again and again.
static int print_bar(const struct summary *summary)
{
    printf("Bar: at most this part of the time of the fastest of three libraries at the median of each kind, and this on any sheet.\n");
    if (!archive_present() || libraries_present() < LIBRARIES) {
        printf("not tried: it needs the archive and all three libraries\n");
        return 0;
    }
    for (int group = 0; group < GROUPS; group++)
        printf("%s: %.1f, %.1f: %s\n", group_titles[group], bars[group].median, bars[group].worst, summary->missed[group] ? "missed" : "met");
    return summary->missed[AT_THE_LIMITS] || summary->missed[MADE_TO_BE_SLOW] || summary->missed[EVERYDAY];
}

int main(int count, char **words)
{
    unsigned sheets = count > 1 ? (unsigned)atoi(words[1]) : 7;
    struct summary summary = {0};

    if (sheets < 1 || sheets > MAX_SHEETS) {
        fprintf(stderr, "the number of sheets of each kind is 1 to %d\n", MAX_SHEETS);
        return 2;
    }
    if (!earlier_load())
        return 1;
    printf("Time of the archive for a whole sheet, over the peer's: %u sheets of each kind with %d places, %u of each everyday kind.\n", sheets, MAX_PLACES,
           sheets_of(kind_at(kind_count), sheets));
    for (unsigned k = 0; k < all_kinds(); k++) {
        const struct kind *kind = kind_at(k);
        if (k == 0 || kind->group != kind_at(k - 1)->group)
            print_head(kind->group);
        judge_kind(kind, sheets_of(kind, sheets), &summary);
    }
    print_listing(sheets, summary.listing_missed);
    struct mending_bar mending = print_mending(sheets);
    summary.differ += print_order(sheets);
    int slower = 0;
    summary.differ += print_earlier(sheets, &slower);
    summary.differ += print_growth(sheets < 5 ? sheets : 5);

    printf("\n%u sheets of these kinds, and those of the growth; judged differently: %u\n", summary.sheets, summary.differ);
    int missed = print_bar(&summary);
    missed |= print_listing_bar(summary.listing_missed);
    print_mending_bar(&mending);
    print_earlier_bar(slower);
    return summary.differ > 0 || missed || mending.missed || slower;
}
