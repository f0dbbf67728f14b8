// The calls about a whole sheet, each made once and compared with what is due: judge, fault, plan judgement and listing.
#include "whole.h"

#include <string.h>

void try_judge(struct trial *trial)
{
    const struct due *due = &trial->due;
    const uint8_t *sheet = trial_lend(trial, JUDGE);
    uint32_t found = reedanchor_judge(sheet, trial->lent);

    if (due->short_places > 0) {
        expect(trial, "its answer", found, REEDANCHOR_SHORT + due->first);
        found = 0;
    }
    trial_end(trial, found, due->fault);
}

void try_fault(struct trial *trial)
{
    struct number item = number_of_junk(trial->r);
    const uint8_t *sheet = trial_lend(trial, FAULT);

    trial_end(trial, reedanchor_fault(sheet, trial->lent, &item.value), trial->due.fault);
    expect_number(trial, "the item", &item, trial->due.item);
}

static void expect_missing(const struct trial *trial)
{
    const uint32_t *row = trial->missing.at;

    for (unsigned p = 0; p < trial->due.plan.places; p++)
        expect(trial, "a missing count", row[p], trial->due.missing[p]);
    expect_kept(trial, &trial->missing, trial->due.plan.places);
}

void try_plan(struct trial *trial, int enough)
{
    const struct due *due = &trial->due;
    struct number item = number_of_junk(trial->r), total = number_of_junk(trial->r), short_places = number_of_junk(trial->r),
                  first = number_of_junk(trial->r);
    const uint8_t *sheet = trial_lend(trial, PLAN);
    int too_short = trial_lend_row(trial, 0, &trial->missing, trial_needs(trial, due->fault == 0, due->plan.places), enough);
    uint32_t fault = due->fault != 0 ? due->fault : too_short ? REEDANCHOR_SHORT_ROW : 0;

    trial_end(trial,
              reedanchor_plan(sheet, trial->lent, trial->missing.at, trial->missing.length, &item.value, &total.value, &short_places.value,
                              &first.value),
              fault);
    expect_number(trial, "the item", &item, due->item);
    expect_number(trial, "the total", &total, fault == 0 ? due->total : 0);
    expect_number(trial, "the number of short places", &short_places, fault == 0 ? due->short_places : 0);
    expect_number(trial, "the first short place", &first, fault == 0 ? due->first : 0);
    if (fault == 0)
        expect_missing(trial);
    else
        expect_kept(trial, &trial->missing, 0);
}

void try_listing(struct trial *trial, int enough)
{
    static char text[DUE_TEXT];
    size_t needed = due_listing(&trial->due, text), written = (size_t)random_next(trial->r);
    const uint8_t *sheet = trial_lend(trial, LISTING);
    int too_short = trial_lend_row(trial, 0, &trial->text, needed, enough);

    trial_end(trial, reedanchor_listing(sheet, trial->lent, trial->text.at, trial->text.length, &written), too_short ? REEDANCHOR_SHORT_ROW : 0);
    expect(trial, "the length written", (int64_t)written, too_short ? 0 : (int64_t)needed);
    if (!too_short)
        expect(trial, "the text is right", memcmp(trial->text.at, text, needed) == 0, 1);
    expect_kept(trial, &trial->text, too_short ? 0 : needed);
}
