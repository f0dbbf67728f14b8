// Writes the pairs of a sheet as the old export does: some twice, some from an event to itself, some to events that were struck out.
#include "old_export.h"

#include "plan.h"
#include "words.h"

#include <string.h>

enum { KINDS = 4, PAIR_BYTES = 4 };

static unsigned events_of(const uint8_t *sheet)
{
    return get32(sheet + 20);
}

static unsigned pairs_of(const uint8_t *sheet)
{
    return get32(sheet + 28);
}

static uint8_t *pair_at(uint8_t *sheet, unsigned pair)
{
    return sheet + get32(sheet + 24) + PAIR_BYTES * pair;
}

static uint32_t pair_of(unsigned earlier, unsigned later)
{
    return earlier | (uint32_t)later << 16;
}

// A number that no event has: the next one, one soon after, one that would be an event if 8 bits of it were read, the greatest, any.
static unsigned draw_struck(unsigned events, struct random *r)
{
    const unsigned numbers[] = {
        events, events + random_below(r, 4), MAX_EVENTS + random_below(r, MAX_EVENTS), UINT16_MAX, events + random_below(r, UINT16_MAX + 1 - events),
    };

    return numbers[random_below(r, sizeof numbers / sizeof *numbers)];
}

// Beside the number that no event has stands an event, the same number, or another such.
static uint32_t draw_struck_pair(unsigned events, struct random *r)
{
    unsigned struck = draw_struck(events, r), other = random_below(r, 2) == 0 ? struck : draw_struck(events, r);

    if (events > 0 && random_below(r, 2) == 0)
        other = random_below(r, events);
    return random_below(r, 2) == 0 ? pair_of(struck, other) : pair_of(other, struck);
}

static uint32_t draw_pair(uint8_t *sheet, unsigned kind, struct random *r)
{
    unsigned event;
    uint32_t there;

    switch (kind) {
    case EXPORT_STRUCK:
        return draw_struck_pair(events_of(sheet), r);
    case EXPORT_SELF:
        event = random_below(r, events_of(sheet));
        return pair_of(event, event);
    default:
        there = get32(pair_at(sheet, random_below(r, pairs_of(sheet))));
        return kind == EXPORT_BACK ? there >> 16 | there << 16 : there;
    }
}

// Of these kinds, those that the sheet has something for.
static unsigned kinds_possible(const uint8_t *sheet, unsigned kinds)
{
    if (events_of(sheet) == 0)
        kinds &= ~(unsigned)EXPORT_SELF;
    if (pairs_of(sheet) == 0)
        kinds &= ~(unsigned)(EXPORT_TWICE | EXPORT_BACK);
    return kinds;
}

static void insert(uint8_t *sheet, unsigned at, uint32_t pair)
{
    unsigned pairs = pairs_of(sheet);

    memmove(pair_at(sheet, at + 1), pair_at(sheet, at), (size_t)PAIR_BYTES * (pairs - at));
    set32(pair_at(sheet, at), pair);
    set32(sheet + 28, pairs + 1);
}

size_t export_add(uint8_t *sheet, size_t length, unsigned more, unsigned kinds, struct random *r)
{
    for (; more > 0 && pairs_of(sheet) < MAX_PAIRS && kinds_possible(sheet, kinds) != 0; more--) {
        unsigned kind;
        do
            kind = 1u << random_below(r, KINDS);
        while ((kinds_possible(sheet, kinds) & kind) == 0);
        insert(sheet, random_below(r, pairs_of(sheet) + 1), draw_pair(sheet, kind, r));
        length += PAIR_BYTES;
    }
    return length;
}

size_t export_struck_first(uint8_t *sheet, size_t length, struct random *r)
{
    if (pairs_of(sheet) == MAX_PAIRS)
        return length;
    insert(sheet, 0, draw_struck_pair(events_of(sheet), r));
    return length + PAIR_BYTES;
}

size_t export_cut(uint8_t *sheet, size_t length, unsigned pairs)
{
    unsigned cut = pairs_of(sheet) > pairs ? pairs_of(sheet) - pairs : 0;

    set32(sheet + 28, pairs_of(sheet) - cut);
    return length - (size_t)PAIR_BYTES * cut;
}
