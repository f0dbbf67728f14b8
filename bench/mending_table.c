// Prints how long mending a sheet at the limits takes over judging faults, and the bar.
#include "mending_table.h"

#include "measure.h"
#include "mending.h"

#include <stdio.h>

enum { BAR = 2, MOST_KINDS = 32, MOST = MOST_KINDS * MAX_SHEETS };

struct ratios {
    unsigned count;
    double clean[MOST], given[MOST], faultless[MOST]; // mending over the fault call on each of these sheets
};

static void add_kind(struct ratios *ratios, const struct kind *kind, enum mess mess, unsigned sheets)
{
    static struct sheet faultless, given;

    for (unsigned i = 0; i < sheets && ratios->count < MOST; i++) {
        sheet_of_kind(&faultless, kind, i);
        given = faultless;
        make_mess(&given, mess, i);
        struct mending_times times = time_mending(&given, &faultless);
        ratios->clean[ratios->count] = times.mending / times.clean;
        ratios->given[ratios->count] = times.mending / times.given;
        ratios->faultless[ratios->count] = times.mending / times.faultless;
        ratios->count++;
    }
}

static double print_median_and_worst(double *ratios, unsigned count)
{
    double middle = median(ratios, count);

    printf(" %-8.2f %-8.2f", middle, ratios[count - 1]);
    return ratios[count - 1];
}

// Adds the sheets of all kinds to what is known of the bar.
static void mend_all(struct mending_bar *bar, enum mess mess, unsigned sheets)
{
    static struct ratios ratios;

    ratios.count = 0;
    for (unsigned k = 0; k < kind_count; k++)
        if (kinds[k].group != FEW_PAIRS)
            add_kind(&ratios, &kinds[k], mess, sheets);
    printf("%-24s  ", mess_names[mess]);
    print_median_and_worst(ratios.clean, ratios.count);
    double worst = print_median_and_worst(ratios.given, ratios.count);
    print_median_and_worst(ratios.faultless, ratios.count);
    printf("\n");
    bar->worst = worst > bar->worst ? worst : bar->worst;
    bar->sheets += ratios.count;
    for (unsigned i = 0; i < ratios.count; i++)
        bar->missed += ratios.given[i] > BAR;
}

struct mending_bar print_mending(unsigned sheets)
{
    struct mending_bar bar = {0};

    if (!archive_present())
        return bar;
    printf("\nMending: its time over that of judging faults, of the clean sheet, of the sheet given, whose first fault ends that, and of the\n"
           "faultless sheet that it was made of; all kinds at the limits\n");
    printf("%-24s   %-17s %-17s %s\n", "pairs", "clean", "given", "faultless");
    printf("%-24s   %-8s %-8s %-8s %-8s %-8s %-8s\n", "", "median", "worst", "median", "worst", "median", "worst");
    for (int mess = 0; mess < MESSES; mess++)
        mend_all(&bar, mess, sheets);
    return bar;
}

void print_mending_bar(const struct mending_bar *bar)
{
    printf("Mending: on sheets at the limits at most %d times judging the faults of the sheet given.\n", BAR);
    if (!archive_present()) {
        printf("not tried: it needs the archive\n");
        return;
    }
    printf("%s: over it on %u of %u sheets, at worst %.2f times\n", bar->missed > 0 ? "missed" : "met", bar->missed, bar->sheets, bar->worst);
}
