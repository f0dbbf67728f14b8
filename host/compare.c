// Compares all calls of the archive with an independent judge on random sheets, short and long, faultless and damaged.
// usage: compare [SHORT [LONG]]    as many short and long sheets; each is judged as it is and with damages
#include "at_place.h"
#include "mend.h"
#include "whole.h"

#include <stdio.h>
#include <stdlib.h>

enum { DAMAGES = 3, EXPORTS = 2, FEW_PLACES = 4, WRONG_PLACES = 2 };

// A place number that isn't in the net; some would be if only their last bits were read.
static size_t wrong_place(const struct trial *trial)
{
    size_t places = trial->due.plan.places, right = places == 0 ? 0 : random_below(trial->r, (unsigned)places);
    const size_t wrong[] = {
        places, places + 1, 255, 256 + right, 65536 + right, UINT32_MAX, (size_t)1 << 32, ((size_t)1 << 32) + right, SIZE_MAX,
    };

    return wrong[random_below(trial->r, sizeof wrong / sizeof *wrong)];
}

static int either(struct trial *trial)
{
    return (int)random_below(trial->r, 2);
}

// The calls at some places, all if there are few, with rows that are long enough and with some that aren't, and at wrong places.
static void try_places(struct trial *trial)
{
    unsigned places = trial->due.plan.places;

    for (unsigned i = 0; i < places && i < FEW_PLACES; i++) {
        unsigned place = places <= FEW_PLACES ? i : i == 0 ? places - 1 : random_below(trial->r, places);
        try_flows(trial, place);
        try_place(trial, place, either(trial), either(trial));
    }
    for (int i = 0; i < WRONG_PLACES; i++) {
        try_place(trial, wrong_place(trial), either(trial), either(trial));
        try_check_flow(trial, wrong_place(trial), either(trial));
    }
}

// On a faulty sheet the fault is the same whatever the place is and however long the rows are.
static void try_refused(struct trial *trial)
{
    static const size_t places[] = {0, 1, REEDANCHOR_MOST_PLACES, SIZE_MAX};

    try_place(trial, places[random_below(trial->r, 4)], either(trial), either(trial));
    try_check_flow(trial, places[random_below(trial->r, 4)], either(trial));
}

static void try_sheet(struct trial *trial, const struct bytes *sheet)
{
    trial_start(trial, sheet);
    try_judge(trial);
    try_fault(trial);
    for (int enough = 0; enough < 2; enough++) {
        try_plan(trial, enough);
        try_listing(trial, enough);
    }
    if (trial->due.fault == 0)
        try_places(trial);
    else
        try_refused(trial);
    try_mending(trial); // the last, since it goes on to another sheet
}

// A sheet as it is, then as the old export writes it, some damaged too, then with damages: one, or two at once.
static void try_all(struct trial *trial, const struct bytes *sheet)
{
    static struct bytes damaged;

    try_sheet(trial, sheet);
    for (int i = 0; i < EXPORTS; i++) {
        damaged = *sheet;
        make_export(&damaged, trial->r);
        if (random_below(trial->r, 8) == 0)
            make_damage(&damaged, trial->r);
        try_sheet(trial, &damaged);
    }
    for (int i = 0; i < DAMAGES; i++) {
        damaged = *sheet;
        for (unsigned more = random_below(trial->r, 4) == 0 ? 2 : 1; more > 0; more--)
            make_damage(&damaged, trial->r);
        try_sheet(trial, &damaged);
    }
}

int main(int words, char **word)
{
    static struct bytes sheet;
    static struct trial trial;
    unsigned long few = words > 1 ? strtoul(word[1], NULL, 10) : 8000, many = words > 2 ? strtoul(word[2], NULL, 10) : 160;
    struct tally tally = {0};
    struct random r = {7};

    trial_open(&trial, &r, &tally);
    for (unsigned long i = 0; i < few; i++) {
        make_short(&sheet, &r);
        try_all(&trial, &sheet);
    }
    for (unsigned long i = 0; i < many; i++) {
        make_long(&sheet, &r, (unsigned)i, i % 4 == 0);
        try_all(&trial, &sheet);
    }
    tally_print(&tally);
    return tally_shows_enough(&tally, 1 + tally.sheets / 1000) ? 0 : 1;
}
