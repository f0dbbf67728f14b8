// How long the archive takes on each kind of sheet, over the independent judge: a line with the ratio, a tab and the kind's name.
//
// The hints that steer a search have no proof, and a wrong one leaves every answer as it is. It shows in these ratios; tests/hints
// holds them to the recorded ones.
#include "measure.h"

#include <stdio.h>

enum { SHEETS = 3, REPEATS = 2 };

// Keeps the lesser of both times, since other work on the machine can only add to a time.
static void keep_lesser(struct times *kept, const struct times *times)
{
    if (times->archive < kept->archive)
        kept->archive = times->archive;
    if (times->independent < kept->independent)
        kept->independent = times->independent;
    kept->agree &= times->agree;
}

static struct times measure_again(const struct kind *kind, unsigned number)
{
    static struct sheet sheet;

    sheet_of_kind(&sheet, kind, number);
    struct times kept = measure(&sheet, number, 1);
    for (int i = 1; i < REPEATS; i++) {
        struct times times = measure(&sheet, number, 1);
        keep_lesser(&kept, &times);
    }
    return kept;
}

int main(void)
{
    for (unsigned k = 0; k < kind_count; k++) {
        double ratios[SHEETS];
        for (unsigned i = 0; i < SHEETS; i++) {
            struct times times = measure_again(&kinds[k], i);
            if (!times.agree) {
                fprintf(stderr, "the judges differ on sheet %u of the kind %s\n", i, kinds[k].name);
                return 1;
            }
            ratios[i] = times.archive / times.independent;
        }
        printf("%.3f\t%s\n", median(ratios, SHEETS), kinds[k].name);
    }
    return 0;
}
