// One sheet on trial: its bytes, what is due of it, and how calls on it are made and compared.
#include "trial.h"

#include "walk.h"

#include <inttypes.h>
#include <stdio.h>
#include <stdlib.h>
#include <string.h>

void trial_open(struct trial *trial, struct random *r, struct tally *tally)
{
    trial->r = r;
    trial->tally = tally;
    guarded_open(&trial->memory, READ_ONLY);
    row_open(&trial->missing, sizeof(uint32_t), REEDANCHOR_ROW_LENGTH, READ_AND_WRITE);
    row_open(&trial->flow, sizeof(uint32_t), REEDANCHOR_FLOW_LENGTH, READ_AND_WRITE);
    row_open(&trial->marks, sizeof(uint8_t), REEDANCHOR_MARKS_LENGTH, READ_AND_WRITE);
    row_open(&trial->text, sizeof(uint8_t), REEDANCHOR_TEXT_LENGTH, READ_AND_WRITE);
    row_open(&trial->clean, sizeof(uint8_t), REEDANCHOR_CLEAN_LENGTH, READ_AND_WRITE);
    row_open(&trial->reasons, sizeof(uint8_t), REEDANCHOR_REASONS_LENGTH, READ_AND_WRITE);
    row_open(&trial->given, sizeof(uint32_t), REEDANCHOR_FLOW_LENGTH, READ_ONLY);
}

static void stop_at(const struct bytes *sheet)
{
    for (size_t i = 0; i < sheet->length; i++)
        fprintf(stderr, "%02x", sheet->at[i]);
    fprintf(stderr, "\n");
    exit(1);
}

void expect(const struct trial *trial, const char *what, int64_t found, int64_t due)
{
    if (found == due)
        return;
    fprintf(stderr, "compare: reedanchor_%s, %s: %" PRId64 " is due, not %" PRId64 ",\n", call_names[trial->call], what, due, found);
    fprintf(stderr, "at place %zu, with rows of %zu and %zu entries, and %zu bytes at the %s of their memory, of the sheet:\n", trial->place,
            trial->lengths[0], trial->lengths[1], trial->lent, trial->side == AT_THE_START ? "start" : "end");
    stop_at(trial->sheet);
}

// Where all done sets can be walked, that has to agree with what is due.
static void walk(struct trial *trial)
{
    const struct due *due = &trial->due;
    uint8_t done[WALK_EVENTS];

    if (due->fault != 0 || due->plan.events > WALK_EVENTS)
        return;
    for (unsigned p = 0; p < due->plan.places; p++) {
        uint32_t least = walk_least(&due->plan, p, done);
        if (least == due->least[p] && (due->missing[p] == 0 || memcmp(done, due->done[p], due->plan.events) == 0))
            continue;
        fprintf(stderr, "compare: the walk over done sets and the independent judge differ at place %u of the sheet:\n", p);
        stop_at(trial->sheet);
    }
    trial->tally->ways[WALKED]++;
}

static void count_sheet(struct tally *tally, const struct bytes *sheet, const struct due *due)
{
    tally->sheets++;
    tally->ways[ABOVE_LIMIT] += sheet->length > MAX_SHEET;
    if (due->item > 0)
        tally->later_item[due->fault]++;
    if (due->fault == REEDANCHOR_LATE_BODY)
        tally->late[plan_wrong_entry(sheet->at)]++;
    if (due->fault == REEDANCHOR_EARLY_BODY)
        tally->early[plan_wrong_entry(sheet->at)]++;
    if (due->fault != 0)
        return;
    tally->ways[due->short_places == 0 ? RUNS : due->first == 0 ? SHORT_AT_0 : SHORT_LATER]++;
    tally->ways[SHORT_TWICE] += due->short_places > 1;
}

static void stop_unless_known(const struct trial *trial, enum call call, uint32_t fault)
{
    if (tally_knows(call, fault))
        return;
    fprintf(stderr, "compare: the independent judge says %u, which is no fault of reedanchor_%s, of the sheet:\n", fault, call_names[call]);
    stop_at(trial->sheet);
}

void trial_start(struct trial *trial, const struct bytes *sheet)
{
    trial->sheet = sheet;
    due_of(&trial->due, sheet->at, sheet->length);
    stop_unless_known(trial, FAULT, trial->due.fault);
    due_mend_of(&trial->mend, &trial->due, sheet->at, sheet->length);
    stop_unless_known(trial, MEND, trial->mend.fault);
    walk(trial);
    count_sheet(trial->tally, sheet, &trial->due);
}

const uint8_t *trial_lend(struct trial *trial, enum call call)
{
    size_t length = trial->sheet->length;

    trial->call = call;
    trial->place = trial->lengths[0] = trial->lengths[1] = 0;
    trial->side = random_below(trial->r, 2) == 0 ? AT_THE_START : AT_THE_END;
    trial->lent = length > REEDANCHOR_ENOUGH_BYTES && random_below(trial->r, 2) == 0 ? REEDANCHOR_ENOUGH_BYTES : length;
    trial->tally->ways[CUT_TO_ENOUGH] += trial->lent < length;
    if (length == 0 && random_below(trial->r, 2) == 0)
        return NULL;
    return guarded_put(&trial->memory, trial->side, trial->sheet->at, trial->lent);
}

size_t trial_needs(const struct trial *trial, int known, size_t entries)
{
    return known ? entries : random_below(trial->r, 16);
}

int trial_lend_row(struct trial *trial, int which, struct row *row, size_t needed, int enough)
{
    unsigned long *ways = trial->tally->ways;

    expect(trial, "a row of the greatest length does", needed <= row->greatest, 1);
    if (enough)
        row_lend_enough(row, needed, trial->r);
    else
        row_lend_short(row, needed, trial->r);
    trial->lengths[which] = row->length;
    ways[ROW_NULL] += row->at == NULL;
    ways[ROW_EXACT] += row->length == needed;
    ways[ROW_LONGER] += row->length > needed;
    ways[ROW_ONE_SHORT] += row->length + 1 == needed;
    ways[ROW_SHORTER] += row->length + 1 < needed;
    return row->length < needed;
}

void trial_end(struct trial *trial, uint32_t found, uint32_t due)
{
    expect(trial, "its fault", found, due);
    trial->tally->calls[trial->call]++;
    trial->tally->faults[trial->call][due]++;
}

struct number number_of_junk(struct random *r)
{
    uint64_t junk = random_next(r);

    return (struct number){(uint32_t)junk, (uint32_t)(junk >> 32), ~(uint32_t)junk};
}

void expect_number(const struct trial *trial, const char *what, const struct number *number, uint32_t due)
{
    expect(trial, what, number->value, due);
    if (number->after != ~number->before)
        expect(trial, "a number beside", number->after, ~number->before);
}

void expect_kept(const struct trial *trial, const struct row *row, size_t from)
{
    expect(trial, "entries kept", row_kept_from(row, from), 1);
}
