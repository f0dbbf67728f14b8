/* Stands between the programs of host/ and both judges, and spoils the one thing that the environment's SPOILED names. */
#define _GNU_SOURCE
#include "independent.h"
#include "reedanchor.h"
#include "words.h"

#include <stdlib.h>
#include <string.h>
#include <unistd.h>

/* The linker's names: by --wrap a call of `name` goes to `__wrap_name`, and one of `__real_name` to what it was. */
#define REAL(name) __real_##name
#define WRAP(name) __wrap_##name

uint32_t REAL(reedanchor_judge)(const uint8_t *, size_t);
uint32_t REAL(reedanchor_fault)(const uint8_t *, size_t, uint32_t *);
uint32_t REAL(reedanchor_plan)(const uint8_t *, size_t, uint32_t *, size_t, uint32_t *, uint32_t *, uint32_t *, uint32_t *);
uint32_t REAL(reedanchor_place)(const uint8_t *, size_t, size_t, uint32_t *, size_t, uint8_t *, size_t, uint32_t *, int32_t *);
uint32_t REAL(reedanchor_check_flow)(const uint8_t *, size_t, size_t, const uint32_t *, size_t, uint32_t *, uint32_t *);
uint32_t REAL(reedanchor_listing)(const uint8_t *, size_t, uint8_t *, size_t, size_t *);
uint32_t REAL(reedanchor_mend)(const uint8_t *, size_t, uint8_t *, size_t, uint8_t *, size_t, uint32_t *, size_t *);
uint32_t REAL(plan_read)(const uint8_t *, size_t, struct plan *);
uint32_t REAL(independent_least)(const struct plan *, unsigned, uint8_t *);

static int spoils(const char *thing)
{
    const char *word = getenv("SPOILED");

    return word != NULL && strcmp(word, thing) == 0;
}

static void touch(const volatile uint8_t *at)
{
    (void)*at;
}

static void use_all_the_stack(void)
{
    volatile uint8_t all[REEDANCHOR_STACK_FAULT > REEDANCHOR_STACK_MEND ? REEDANCHOR_STACK_FAULT : REEDANCHOR_STACK_MEND];

    all[0] = 0;
    touch(all);
}

uint32_t WRAP(reedanchor_judge)(const uint8_t *sheet, size_t length)
{
    uint32_t answer = REAL(reedanchor_judge)(sheet, length);

    if (spoils("read past the sheet") && length > 0)
        touch(sheet + length);
    if (spoils("read before the sheet") && length > 0)
        touch(sheet - 1);
    if (spoils("write the sheet") && length > 0)
        *(volatile uint8_t *)sheet = *sheet;
    if (spoils("judge: always runs") && answer >= REEDANCHOR_SHORT)
        return REEDANCHOR_RUNS;
    if (spoils("judge: the next place") && answer >= REEDANCHOR_SHORT)
        return answer + 1;
    if (spoils("judge: 3 for 14") && answer == REEDANCHOR_LATE_BODY)
        return 3;
    return answer;
}

uint32_t WRAP(reedanchor_fault)(const uint8_t *sheet, size_t length, uint32_t *item)
{
    uint32_t kept = *item, answer = REAL(reedanchor_fault)(sheet, length, item);

    if (spoils("fault: the next item") && answer >= REEDANCHOR_OVER_OPENING && answer <= REEDANCHOR_REPEATED_PAIR)
        ++*item;
    if (spoils("fault: an item of 11") && answer == REEDANCHOR_CYCLE)
        *item = 1;
    if ((spoils("fault: item unwritten") && answer == 0) || (spoils("fault: item unwritten at 1") && answer == REEDANCHOR_NO_TABLE))
        *item = kept;
    if (spoils("fault: item of 64 bits"))
        item[1] = 0;
    if (spoils("fault: an item in other threads") && gettid() != getpid())
        *item = 1;
    if (spoils("fault: more stack"))
        use_all_the_stack();
    if (spoils("fault: 15 for 14") && answer == REEDANCHOR_LATE_BODY)
        return REEDANCHOR_EARLY_BODY;
    return answer;
}

/* What is wrong in a row of missing counts. */
static void spoil_missing(uint32_t answer, size_t places, uint32_t *row, size_t length)
{
    if (spoils("plan: a count too many") && answer == 0 && places > 0)
        row[places - 1]++;
    if (spoils("plan: place 0 for all") && answer == 0)
        for (size_t p = 1; p < places; p++)
            row[p] = row[0];
    if (spoils("plan: an entry beyond") && answer == 0 && length > places)
        row[places]++;
    if (spoils("plan: row changed at 13") && answer == REEDANCHOR_SHORT_ROW && length > 0)
        row[length - 1]++;
    if (spoils("plan: row changed at 11") && answer == REEDANCHOR_CYCLE && length > 0)
        row[0]++;
    if (spoils("plan: read past the row") && length > 0)
        touch((const uint8_t *)(row + length));
    if (spoils("plan: read before the row") && length > 0)
        touch((const uint8_t *)row - 1);
}

uint32_t WRAP(reedanchor_plan)(const uint8_t *sheet, size_t length, uint32_t *row, size_t row_length, uint32_t *item, uint32_t *total,
                               uint32_t *short_places, uint32_t *first)
{
    uint32_t kept = *first, kept_total = *total;
    uint32_t answer = REAL(reedanchor_plan)(sheet, length, row, row_length, item, total, short_places, first);
    size_t places = answer == 0 ? REEDANCHOR_COUNT(sheet, REEDANCHOR_PLACES) : 0;

    spoil_missing(answer, places, row, row_length);
    if (spoils("plan: item unwritten") && answer == REEDANCHOR_SHORT_ROW)
        *item = kept;
    if (spoils("plan: no total"))
        *total = 0;
    if (spoils("plan: total unwritten at 13") && answer == REEDANCHOR_SHORT_ROW)
        *total = kept_total;
    if (spoils("plan: one short place") && *short_places > 0)
        *short_places = 1;
    if (spoils("plan: the last short place first"))
        for (size_t p = 0; p < places; p++)
            *first = row[p] > 0 ? (uint32_t)p : *first;
    if (spoils("plan: first unwritten") && *short_places == 0)
        *first = kept;
    if (spoils("plan: 13 before the sheet's fault") && answer != 0 && row_length == 0)
        return REEDANCHOR_SHORT_ROW;
    return answer;
}

/* What is wrong in what the place judgement hands over. */
static void spoil_shown(const uint8_t *sheet, int32_t spare, uint32_t *flow, size_t flow_length, uint8_t *marks, size_t marks_length)
{
    size_t events = REEDANCHOR_COUNT(sheet, REEDANCHOR_EVENTS), entries = REEDANCHOR_COUNT(sheet, REEDANCHOR_PAIRS) + events;

    if (spoils("place: a share too many") && spare == 0 && entries > 0)
        flow[entries - 1] += 1000001;
    if (spoils("place: a flow where it is short") && spare < 0)
        flow[0] = 1;
    if (spoils("place: a mark where it runs") && spare >= 0 && events > 0)
        marks[events - 1] = 1;
    if (spoils("place: marks of the other events") && spare < 0)
        for (size_t e = 0; e < events; e++)
            marks[e] = !marks[e];
    if (spoils("place: marks of 255") && spare < 0)
        for (size_t e = 0; e < events; e++)
            marks[e] = marks[e] ? 255 : 0;
    if (spoils("place: an entry beyond") && flow_length > entries)
        flow[entries] = 0;
    if (spoils("place: a mark beyond") && marks_length > events)
        marks[events]++;
}

uint32_t WRAP(reedanchor_place)(const uint8_t *sheet, size_t length, size_t place, uint32_t *flow, size_t flow_length, uint8_t *marks,
                                size_t marks_length, uint32_t *item, int32_t *spare)
{
    int32_t kept = *spare;
    size_t taken = spoils("place: of 32 bits") ? (uint32_t)place : spoils("place: of 8 bits") ? (uint8_t)place : place;
    uint32_t answer = REAL(reedanchor_place)(sheet, length, taken, flow, flow_length, marks, marks_length, item, spare);

    if (answer == 0)
        spoil_shown(sheet, *spare, flow, flow_length, marks, marks_length);
    if (spoils("place: spare without its sign"))
        *spare = abs(*spare);
    if (spoils("place: nothing to spare") && *spare > 0)
        *spare = 0;
    if (spoils("place: spare unwritten at 12") && answer == REEDANCHOR_NO_PLACE)
        *spare = kept;
    if (spoils("place: flow changed at 13") && answer == REEDANCHOR_SHORT_ROW && flow_length > 0)
        flow[0]++;
    if (spoils("place: marks changed at 13") && answer == REEDANCHOR_SHORT_ROW && marks_length > 0)
        marks[marks_length - 1]++;
    if (spoils("place: 13 before 12") && answer == REEDANCHOR_NO_PLACE && marks_length == 0)
        return REEDANCHOR_SHORT_ROW;
    if (spoils("place: 12 before the sheet's fault") && answer != 0 && place >= REEDANCHOR_MOST_PLACES)
        return REEDANCHOR_NO_PLACE;
    return answer;
}

uint32_t WRAP(reedanchor_check_flow)(const uint8_t *sheet, size_t length, size_t place, const uint32_t *flow, size_t flow_length, uint32_t *item,
                                     uint32_t *valid)
{
    uint32_t kept = *valid, kept_item = *item;
    size_t taken = spoils("check_flow: place of 32 bits") ? (uint32_t)place : place;
    uint32_t answer = REAL(reedanchor_check_flow)(sheet, length, taken, flow, flow_length, item, valid);

    if (spoils("check_flow: any flow is valid") && answer == 0)
        *valid = 1;
    if (spoils("check_flow: no flow is valid"))
        *valid = 0;
    if (spoils("check_flow: the greatest number is valid") && answer == 0 && flow_length > 0 && flow[0] == UINT32_MAX)
        *valid = 1;
    if (spoils("check_flow: valid is 2") && *valid == 1)
        *valid = 2;
    if (spoils("check_flow: valid unwritten at 13") && answer == REEDANCHOR_SHORT_ROW)
        *valid = kept;
    if (spoils("check_flow: item unwritten") && answer == 0)
        *item = kept_item;
    if (spoils("check_flow: write the flow") && flow_length > 0)
        *(volatile uint32_t *)flow = *flow;
    if (spoils("check_flow: read past the flow") && flow_length > 0)
        touch((const uint8_t *)(flow + flow_length));
    return answer;
}

uint32_t WRAP(reedanchor_listing)(const uint8_t *sheet, size_t length, uint8_t *text, size_t text_length, size_t *written)
{
    size_t kept = *written;
    uint32_t answer = REAL(reedanchor_listing)(sheet, length, text, text_length, written);
    int room = answer == 0 && text_length > *written;

    if (spoils("listing: a zero at the end") && room)
        text[*written] = 0;
    if (spoils("listing: a byte more") && room)
        text[(*written)++] = '\n';
    if (spoils("listing: another digit") && answer == 0)
        text[strcspn((const char *)text, "0123456789")] ^= 1;
    if (spoils("listing: length unwritten at 13") && answer == REEDANCHOR_SHORT_ROW)
        *written = kept;
    if (spoils("listing: length of 32 bits"))
        *written = (kept & ~(size_t)UINT32_MAX) | *written;
    if (spoils("listing: text changed at 13") && answer == REEDANCHOR_SHORT_ROW && text_length > 0)
        memcpy(text, "\n", 1);
    if (spoils("listing: the sheet's fault") && length < REEDANCHOR_TABLE_BYTES)
        return REEDANCHOR_NO_TABLE;
    return answer;
}

enum { PAIR = 4 }; /* bytes */

/* Whether the same pair stands from one position up to another. */
static int stands_between(const uint8_t *pairs, size_t pair, size_t from, size_t to)
{
    for (size_t i = from; i < to; i++)
        if (get32(pairs + PAIR * i) == get32(pairs + PAIR * pair))
            return 1;
    return 0;
}

/* What is wrong in the reason of one pair. */
static uint8_t spoiled_reason(const uint8_t *pairs, size_t count, size_t i, uint8_t reason, size_t events)
{
    unsigned earlier = get16(pairs + PAIR * i), later = get16(pairs + PAIR * i + 2);

    if (spoils("mend: the last of repeats") && (reason == REEDANCHOR_KEPT || reason == REEDANCHOR_REPEATS))
        return stands_between(pairs, i, i + 1, count) ? REEDANCHOR_REPEATS : REEDANCHOR_KEPT;
    if (spoils("mend: repeats in a row alone") && reason == REEDANCHOR_REPEATS && !stands_between(pairs, i, i - 1, i))
        return REEDANCHOR_KEPT;
    if (spoils("mend: 2 for a self-pair of no event") && earlier == later && reason == REEDANCHOR_NAMES_NO_EVENT)
        return REEDANCHOR_OF_ONE_EVENT;
    if (spoils("mend: 3 for a self-pair given again") && reason == REEDANCHOR_OF_ONE_EVENT && stands_between(pairs, i, 0, i))
        return REEDANCHOR_REPEATS;
    if (spoils("mend: 3 for a pair of no event given again") && reason == REEDANCHOR_NAMES_NO_EVENT && stands_between(pairs, i, 0, i))
        return REEDANCHOR_REPEATS;
    if (spoils("mend: the later event unread") && earlier < events && later >= events)
        return REEDANCHOR_KEPT;
    if (spoils("mend: events of 8 bits") && reason == REEDANCHOR_NAMES_NO_EVENT && (uint8_t)earlier < events && (uint8_t)later < events)
        return REEDANCHOR_KEPT;
    return reason;
}

/* Writes the clean sheet that these reasons make. */
static void write_kept(const uint8_t *sheet, size_t length, uint8_t *clean, const uint8_t *reasons, size_t *written)
{
    size_t count = REEDANCHOR_COUNT(sheet, REEDANCHOR_PAIRS), start = length - PAIR * count;

    *written = start;
    for (size_t i = 0; i < count; i++)
        if (reasons[i] == REEDANCHOR_KEPT) {
            memcpy(clean + *written, sheet + start + PAIR * i, PAIR);
            *written += PAIR;
        }
    set32(clean + 8 * REEDANCHOR_PAIRS + 4, (uint32_t)((*written - start) / PAIR));
}

/* What is wrong in which pairs are kept. */
static void spoil_kept(const uint8_t *sheet, size_t length, uint8_t *clean, uint8_t *reasons, size_t *written)
{
    uint8_t right[REEDANCHOR_REASONS_LENGTH], kept[REEDANCHOR_REASONS_LENGTH];
    size_t count = REEDANCHOR_COUNT(sheet, REEDANCHOR_PAIRS), events = REEDANCHOR_COUNT(sheet, REEDANCHOR_EVENTS);

    for (size_t i = 0; i < count; i++) {
        right[i] = reasons[i];
        kept[i] = reasons[i] = spoiled_reason(sheet + length - PAIR * count, count, i, reasons[i], events);
    }
    if (spoils("mend: the pair after a dropped one dropped"))
        for (size_t i = 1; i < count; i++)
            kept[i] = reasons[i - 1] != REEDANCHOR_KEPT ? reasons[i - 1] : reasons[i];
    if (spoils("mend: dropped pairs kept"))
        memset(kept, REEDANCHOR_KEPT, count);
    if (memcmp(kept, right, count) != 0)
        write_kept(sheet, length, clean, kept, written);
}

/* What is wrong in the rows where a sheet is mended. */
static void spoil_mended(const uint8_t *sheet, size_t length, uint8_t *clean, size_t clean_length, uint8_t *reasons, size_t reasons_length,
                         size_t *written)
{
    size_t count = REEDANCHOR_COUNT(sheet, REEDANCHOR_PAIRS), start = length - PAIR * count;

    spoil_kept(sheet, length, clean, reasons, written);
    if (spoils("mend: the pair count as given"))
        memcpy(clean + 8 * REEDANCHOR_PAIRS + 4, sheet + 8 * REEDANCHOR_PAIRS + 4, 4);
    if (spoils("mend: another body") && start > REEDANCHOR_TABLE_BYTES)
        clean[start - 1] ^= 1;
    if (spoils("mend: the first kept pair last") && *written > start) {
        uint32_t first = get32(clean + start);
        memmove(clean + start, clean + start + PAIR, *written - start - PAIR);
        set32(clean + *written - PAIR, first);
    }
    if (spoils("mend: a byte beyond") && clean_length > *written)
        clean[*written]++;
    if (spoils("mend: a reason beyond") && reasons_length > count)
        reasons[count]++;
    if (spoils("mend: a reason in other threads") && gettid() != getpid() && count > 0)
        reasons[0]++;
}

/* What is wrong in the rows where the call is refused. */
static void spoil_refused(uint32_t answer, uint8_t *clean, size_t clean_length, uint8_t *reasons, size_t reasons_length)
{
    if (spoils("mend: clean changed at 13") && answer == REEDANCHOR_SHORT_ROW && clean_length > 0)
        clean[clean_length - 1]++;
    if (spoils("mend: reasons changed at 13") && answer == REEDANCHOR_SHORT_ROW && reasons_length > 0)
        reasons[0]++;
    if (spoils("mend: clean changed at 11") && answer == REEDANCHOR_CYCLE && clean_length > 0)
        clean[0]++;
    if (spoils("mend: reasons changed at 11") && answer == REEDANCHOR_CYCLE && reasons_length > 0)
        reasons[reasons_length - 1]++;
}

/* Whether the pairs that name no event have one the other way round. */
static int has_struck_cycle(const uint8_t *pairs, size_t count, const uint8_t *reasons)
{
    for (size_t i = 0; i < count; i++)
        for (size_t j = 0; j < i; j++)
            if (reasons[i] == REEDANCHOR_NAMES_NO_EVENT && get16(pairs + PAIR * i) == get16(pairs + PAIR * j + 2) &&
                get16(pairs + PAIR * i + 2) == get16(pairs + PAIR * j) && get32(pairs + PAIR * i) != get32(pairs + PAIR * j))
                return 1;
    return 0;
}

/* Another fault in place of the right one. */
static uint32_t spoiled_fault(uint32_t answer, const uint8_t *sheet, size_t length, const uint8_t *reasons, size_t row_length)
{
    size_t count = answer == 0 ? REEDANCHOR_COUNT(sheet, REEDANCHOR_PAIRS) : 0;
    uint32_t item;

    if (spoils("mend: a self-pair is a cycle") && count > 0 && memchr(reasons, REEDANCHOR_OF_ONE_EVENT, count) != NULL)
        return REEDANCHOR_CYCLE;
    if (spoils("mend: pairs of no event are a cycle") && has_struck_cycle(sheet + length - PAIR * count, count, reasons))
        return REEDANCHOR_CYCLE;
    if (spoils("mend: no cycle") && answer == REEDANCHOR_CYCLE)
        return REEDANCHOR_RUNS;
    if (spoils("mend: the sheet's fault") && answer == 0)
        return REAL(reedanchor_fault)(sheet, length, &item);
    if (spoils("mend: 13 before 11") && answer == REEDANCHOR_CYCLE && row_length == 0)
        return REEDANCHOR_SHORT_ROW;
    if (spoils("mend: 13 before the sheet's fault") && answer != 0 && answer != REEDANCHOR_CYCLE && row_length == 0)
        return REEDANCHOR_SHORT_ROW;
    return answer;
}

/* Mending where a clean row that is long enough for the clean sheet does. */
static uint32_t mend_by_clean_length(const uint8_t *sheet, size_t length, uint8_t *clean, size_t clean_length, uint8_t *reasons,
                                     size_t reasons_length, uint32_t *item, size_t *written)
{
    uint8_t row[REEDANCHOR_CLEAN_LENGTH], other[REEDANCHOR_REASONS_LENGTH];
    uint32_t answer = REAL(reedanchor_mend)(sheet, length, row, sizeof row, other, reasons_length, item, written);

    if (answer != 0 || *written > clean_length)
        return REAL(reedanchor_mend)(sheet, length, clean, clean_length, reasons, reasons_length, item, written);
    memcpy(clean, row, *written);
    if (reasons_length > 0)
        memcpy(reasons, other, REEDANCHOR_COUNT(sheet, REEDANCHOR_PAIRS));
    return answer;
}

/* What is wrong in the two numbers. */
static void spoil_numbers(uint32_t answer, size_t length, uint32_t kept_item, uint32_t *item, size_t kept, size_t *written)
{
    if ((spoils("mend: item unwritten") && answer == 0) || (spoils("mend: item unwritten at 13") && answer == REEDANCHOR_SHORT_ROW))
        *item = kept_item;
    if (spoils("mend: item of 64 bits"))
        item[1] = 0;
    if (spoils("mend: the next item") && answer >= REEDANCHOR_OVER_OPENING && answer <= REEDANCHOR_NO_TRANSITION)
        ++*item;
    if (spoils("mend: an item of 11") && answer == REEDANCHOR_CYCLE)
        *item = 1;
    if ((spoils("mend: length unwritten at 1") && answer == REEDANCHOR_NO_TABLE) ||
        (spoils("mend: length unwritten at 11") && answer == REEDANCHOR_CYCLE) ||
        (spoils("mend: length unwritten at 13") && answer == REEDANCHOR_SHORT_ROW))
        *written = kept;
    if (spoils("mend: length of 32 bits"))
        *written = (kept & ~(size_t)UINT32_MAX) | *written;
    if (spoils("mend: the length given") && answer == 0)
        *written = length;
}

uint32_t WRAP(reedanchor_mend)(const uint8_t *sheet, size_t length, uint8_t *clean, size_t clean_length, uint8_t *reasons, size_t reasons_length,
                               uint32_t *item, size_t *written)
{
    uint32_t kept_item = *item;
    size_t kept = *written;
    uint32_t answer = spoils("mend: 13 by the clean sheet's length")
                          ? mend_by_clean_length(sheet, length, clean, clean_length, reasons, reasons_length, item, written)
                          : REAL(reedanchor_mend)(sheet, length, clean, clean_length, reasons, reasons_length, item, written);

    if (answer == 0)
        spoil_mended(sheet, length, clean, clean_length, reasons, reasons_length, written);
    spoil_refused(answer, clean, clean_length, reasons, reasons_length);
    spoil_numbers(answer, length, kept_item, item, kept, written);
    if (spoils("mend: read past the clean row") && clean_length > 0)
        touch(clean + clean_length);
    if (spoils("mend: read before the reasons") && reasons_length > 0)
        touch(reasons - 1);
    if (spoils("mend: write the sheet") && length > 0)
        *(volatile uint8_t *)sheet = *sheet;
    if (spoils("mend: more stack"))
        use_all_the_stack();
    return spoiled_fault(answer, sheet, length, reasons, reasons_length);
}

uint32_t WRAP(plan_read)(const uint8_t *sheet, size_t length, struct plan *plan)
{
    uint32_t fault = REAL(plan_read)(sheet, length, plan);

    return spoils("independent: 3 for 14") && fault == REEDANCHOR_LATE_BODY ? 3 : fault;
}

uint32_t WRAP(independent_least)(const struct plan *plan, unsigned place, uint8_t *done)
{
    uint32_t least = REAL(independent_least)(plan, place, done);

    if (spoils("independent: a larger done set") && done != NULL && plan->events > 0)
        done[plan->events - 1] = 1;
    return spoils("independent: one more") ? least + 1 : least;
}
