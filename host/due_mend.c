// What is due of mending a sheet, by document 02's rules as they are written: each pair is held against all those before it.
#include "due_mend.h"

#include "words.h"

#include <string.h>

enum { PAIR_BYTES = 4 };

// Faults 8 to 11 are of the pairs. Whatever stands before them stands in the way of mending, too.
static int is_of_pairs(uint32_t fault)
{
    return fault >= REEDANCHOR_NO_EVENT && fault <= REEDANCHOR_CYCLE;
}

static int stands_before(const uint8_t *pairs, unsigned pair)
{
    for (unsigned i = 0; i < pair; i++)
        if (memcmp(pairs + PAIR_BYTES * i, pairs + PAIR_BYTES * pair, PAIR_BYTES) == 0)
            return 1;
    return 0;
}

static uint8_t reason_of(const uint8_t *pair, int again, unsigned events)
{
    unsigned earlier = get16(pair), later = get16(pair + 2);

    if (earlier >= events || later >= events)
        return REEDANCHOR_NAMES_NO_EVENT;
    if (earlier == later)
        return REEDANCHOR_OF_ONE_EVENT;
    return again ? REEDANCHOR_REPEATS : REEDANCHOR_KEPT;
}

// Keeps all that stands before the pairs, and of them those without a reason.
static void work_out_clean(struct due_mend *mend, const uint8_t *sheet, size_t length)
{
    unsigned events = REEDANCHOR_COUNT(sheet, REEDANCHOR_EVENTS), kept = 0;

    mend->pairs = REEDANCHOR_COUNT(sheet, REEDANCHOR_PAIRS);
    mend->length = length - PAIR_BYTES * mend->pairs;
    const uint8_t *pairs = sheet + mend->length;
    memcpy(mend->clean, sheet, mend->length);
    for (unsigned i = 0; i < mend->pairs; i++) {
        mend->again[i] = (uint8_t)stands_before(pairs, i);
        mend->reasons[i] = reason_of(pairs + PAIR_BYTES * i, mend->again[i], events);
        if (mend->reasons[i] != REEDANCHOR_KEPT)
            continue;
        memcpy(mend->clean + mend->length, pairs + PAIR_BYTES * i, PAIR_BYTES);
        mend->length += PAIR_BYTES;
        kept++;
    }
    set32(mend->clean + 8 * REEDANCHOR_PAIRS + 4, kept);
}

void due_mend_of(struct due_mend *mend, const struct due *due, const uint8_t *sheet, size_t length)
{
    static struct plan plan;

    mend->fault = due->fault;
    mend->item = due->item;
    if (due->fault != 0 && !is_of_pairs(due->fault))
        return;
    work_out_clean(mend, sheet, length);
    mend->fault = plan_read(mend->clean, mend->length, &plan); // a cycle is all that there can be
    mend->item = 0;
}

void due_mend_before(const uint8_t *sheet, size_t length, uint8_t before[MAX_EVENTS][MAX_EVENTS])
{
    unsigned events = REEDANCHOR_COUNT(sheet, REEDANCHOR_EVENTS);
    const uint8_t *end = sheet + length;

    memset(before, 0, MAX_EVENTS * sizeof *before);
    for (const uint8_t *pair = end - PAIR_BYTES * REEDANCHOR_COUNT(sheet, REEDANCHOR_PAIRS); pair < end; pair += PAIR_BYTES)
        if (get16(pair) < events && get16(pair + 2) < events && get16(pair) != get16(pair + 2))
            before[get16(pair)][get16(pair + 2)] = 1;
    for (unsigned between = 0; between < events; between++)
        for (unsigned a = 0; a < events; a++)
            for (unsigned b = 0; b < events; b++)
                before[a][b] |= before[a][between] && before[between][b];
}
