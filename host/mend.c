// Mending, compared with what is due; what is handed back is judged, and mended again.
#include "mend.h"

#include "whole.h"
#include "words.h"

#include <string.h>

enum { FEW_EVENTS = 64 };

// Whether the pairs are known, and with them what the rows need.
static int has_pairs(const struct due_mend *due)
{
    return due->fault == 0 || due->fault == REEDANCHOR_CYCLE;
}

static void expect_mended(const struct trial *trial)
{
    const struct due_mend *due = &trial->mend;
    const uint8_t *reasons = trial->reasons.at;

    for (unsigned i = 0; i < due->pairs; i++)
        expect(trial, "the reason of a pair", reasons[i], due->reasons[i]);
    expect(trial, "the clean sheet is right", memcmp(trial->clean.at, due->clean, due->length) == 0, 1);
    expect_kept(trial, &trial->clean, due->length);
    expect_kept(trial, &trial->reasons, due->pairs);
}

static void count_rows(struct trial *trial, int clean_short, int reasons_short)
{
    const struct due_mend *due = &trial->mend;
    unsigned long *ways = trial->tally->ways;

    ways[CYCLE_SHORT_ROW] += due->fault == REEDANCHOR_CYCLE && (clean_short || reasons_short);
    if (due->fault != 0)
        return;
    ways[CLEAN_SHORT_ALONE] += clean_short && !reasons_short;
    ways[REASONS_SHORT_ALONE] += reasons_short && !clean_short;
    ways[CLEAN_ROW_BETWEEN] += clean_short && !reasons_short && trial->clean.length >= due->length;
}

static void try_mend(struct trial *trial, int clean_enough, int reasons_enough)
{
    const struct due_mend *due = &trial->mend;
    struct number item = number_of_junk(trial->r);
    size_t written = (size_t)random_next(trial->r);
    const uint8_t *sheet = trial_lend(trial, MEND);
    int clean_short = trial_lend_row(trial, 0, &trial->clean, trial_needs(trial, has_pairs(due), trial->sheet->length), clean_enough);
    int reasons_short = trial_lend_row(trial, 1, &trial->reasons, trial_needs(trial, has_pairs(due), due->pairs), reasons_enough);
    uint32_t fault = due->fault != 0 ? due->fault : clean_short || reasons_short ? REEDANCHOR_SHORT_ROW : 0;

    trial_end(trial,
              reedanchor_mend(sheet, trial->lent, trial->clean.at, trial->clean.length, trial->reasons.at, trial->reasons.length, &item.value,
                              &written),
              fault);
    expect_number(trial, "the item", &item, due->item);
    expect(trial, "the length written", (int64_t)written, fault == 0 ? (int64_t)due->length : 0);
    if (fault == 0) {
        expect_mended(trial);
    } else {
        expect_kept(trial, &trial->clean, 0);
        expect_kept(trial, &trial->reasons, 0);
    }
    count_rows(trial, clean_short, reasons_short);
}

// What can be told of single pairs beside their reasons.
static void count_pairs(struct trial *trial)
{
    const struct due_mend *due = &trial->mend;
    const uint8_t *pair = trial->sheet->at + trial->sheet->length - 4 * due->pairs;
    unsigned long *ways = trial->tally->ways;

    for (unsigned i = 0; i < due->pairs; i++, pair += 4) {
        uint8_t reason = due->reasons[i];
        trial->tally->reasons[reason]++;
        ways[STRUCK_SELF] += reason == REEDANCHOR_NAMES_NO_EVENT && get16(pair) == get16(pair + 2);
        ways[STRUCK_AGAIN] += reason == REEDANCHOR_NAMES_NO_EVENT && due->again[i];
        ways[SELF_AGAIN] += reason == REEDANCHOR_OF_ONE_EVENT && due->again[i];
        ways[REPEAT_APART] += reason == REEDANCHOR_REPEATS && get32(pair) != get32(pair - 4);
    }
}

// Which reasons occur in the sheet.
static void count_reasons(struct trial *trial)
{
    const struct due_mend *due = &trial->mend;
    unsigned long *ways = trial->tally->ways;
    int occurs[REASONS] = {0}, last = 0, different = 0;

    for (unsigned i = 0; i < due->pairs; i++)
        occurs[due->reasons[i]] = 1;
    for (int reason = 1; reason < REASONS; reason++) {
        last = occurs[reason] ? reason : last;
        different += occurs[reason];
    }
    if (different <= 1)
        trial->tally->reason_alone[last]++;
    ways[EVERY_REASON] += different == REASONS - 1;
    ways[ALL_DROPPED] += different > 0 && !occurs[REEDANCHOR_KEPT];
    ways[MOST_PAIRS] += different > 0 && due->pairs == MAX_PAIRS;
    ways[CYCLE_AND_DROPPED] += different > 0 && due->fault == REEDANCHOR_CYCLE;
}

// Expects "before" to be what it was by the pairs given, where that doesn't take long.
static void expect_before(const struct trial *trial, const struct bytes *given)
{
    static uint8_t before[MAX_EVENTS][MAX_EVENTS];
    const struct plan *plan = &trial->due.plan;

    if (plan->events > FEW_EVENTS)
        return;
    due_mend_before(given->at, given->length, before);
    for (unsigned a = 0; a < plan->events; a++)
        for (unsigned b = 0; b < plan->events; b++)
            expect(trial, "whether an event is before another by what was handed back", plan->before[a][b], before[a][b]);
}

// What was handed back has no fault by either judge and the same "before", and mending leaves it as it is.
static void try_handed_back(struct trial *trial)
{
    static struct bytes handed;
    const struct bytes *given = trial->sheet;

    handed.length = trial->mend.length;
    memcpy(handed.at, trial->clean.at, handed.length);
    trial_start(trial, &handed);
    expect(trial, "the fault of what was handed back, by the independent judge", trial->due.fault, 0);
    expect_before(trial, given);
    try_judge(trial);
    try_fault(trial);
    try_mend(trial, 1, 1);
    const uint8_t *reasons = trial->reasons.at;
    for (unsigned i = 0; i < trial->mend.pairs; i++)
        expect(trial, "the reason of a pair that was handed back", reasons[i], REEDANCHOR_KEPT);
    expect(trial, "the length of what was handed back", (int64_t)trial->mend.length, (int64_t)handed.length);
    expect(trial, "what was handed back stays as it is", memcmp(trial->clean.at, handed.at, handed.length) == 0, 1);
    trial->tally->ways[MENDED_AGAIN]++;
}

void try_mending(struct trial *trial)
{
    if (has_pairs(&trial->mend)) {
        count_pairs(trial);
        count_reasons(trial);
    }
    for (int clean_enough = 0; clean_enough < 2; clean_enough++)
        for (int reasons_enough = 0; reasons_enough < 2; reasons_enough++)
            try_mend(trial, clean_enough, reasons_enough);
    if (trial->mend.fault == 0 && trial->mend.length < trial->sheet->length)
        try_handed_back(trial);
}
