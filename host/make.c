// Random sheets, short and long, and ways to damage them.
#include "make.h"

#include "independent.h"
#include "old_export.h"
#include "words.h"

#include <string.h>

static void put16(struct bytes *sheet, unsigned number)
{
    sheet->at[sheet->length++] = (uint8_t)number;
    sheet->at[sheet->length++] = (uint8_t)(number >> 8);
}

static void put32(struct bytes *sheet, uint32_t number)
{
    put16(sheet, number & 0xffff);
    put16(sheet, number >> 16);
}

static void put_contents(struct bytes *sheet, const unsigned count[4])
{
    const unsigned size[4] = {4, 4 * count[0], 2, 4};
    unsigned start = 32;

    sheet->length = 0;
    for (int i = 0; i < 4; i++) {
        put32(sheet, start);
        put32(sheet, count[i]);
        start += count[i] * size[i];
    }
}

// An opening count: the least with which the plan runs, one less, any less, some more, or the greatest.
static uint32_t draw_opening(uint32_t least, struct random *r)
{
    switch (random_below(r, 8)) {
    case 0:
        return least > 0 ? least - 1 : 0;
    case 1:
        return least > 0 ? random_below(r, least) : 0;
    case 2:
        return MAX_OPENING;
    case 3:
        return least + 1 + random_below(r, 8);
    default:
        return least;
    }
}

static void set_openings(struct bytes *sheet, struct random *r)
{
    static struct plan plan;

    if (plan_read(sheet->at, sheet->length, &plan) != 0)
        return;
    for (unsigned p = 0; p < plan.places; p++)
        set32(sheet->at + 32 + 4 * p, draw_opening(independent_least(&plan, p, NULL), r));
}

// Pairs from lower to higher in a random numbering, each with the same chance.
static unsigned draw_pairs(struct random *r, unsigned events, uint16_t pairs[][2])
{
    uint16_t number[16];
    unsigned found = 0, chance = random_below(r, 9);

    for (unsigned e = 0; e < events; e++) {
        unsigned other = random_below(r, e + 1);
        number[e] = number[other];
        number[other] = (uint16_t)e;
    }
    for (unsigned b = 0; b < events; b++)
        for (unsigned a = 0; a < b; a++)
            if (random_below(r, 8) < chance) {
                unsigned other = random_below(r, found + 1);
                memcpy(pairs[found++], pairs[other], sizeof pairs[other]);
                pairs[other][0] = number[a];
                pairs[other][1] = number[b];
            }
    return found;
}

void make_short(struct bytes *sheet, struct random *r)
{
    uint16_t pairs[64][2];
    unsigned count[4] = {random_below(r, 5), random_below(r, 16) == 0 ? 0 : 1 + random_below(r, 4), random_below(r, 9), 0};
    unsigned most = random_below(r, 2) == 0 ? 2 : random_below(r, 2) == 0 ? 4 : MAX_WEIGHT + 1;

    memset(pairs, 0, sizeof pairs);
    if (count[1] == 0)
        count[2] = 0; // since each event has a transition
    count[3] = draw_pairs(r, count[2], pairs);
    put_contents(sheet, count);
    for (unsigned p = 0; p < count[0]; p++)
        put32(sheet, 0);
    for (unsigned i = 0; i < 2 * count[0] * count[1]; i++)
        put16(sheet, random_below(r, most));
    for (unsigned e = 0; e < count[2]; e++)
        put16(sheet, random_below(r, count[1]));
    for (unsigned i = 0; i < count[3]; i++) {
        put16(sheet, pairs[i][0]);
        put16(sheet, pairs[i][1]);
    }
    set_openings(sheet, r);
}

void make_long(struct bytes *sheet, struct random *r, unsigned number, int full)
{
    static struct sheet made;
    unsigned places = full ? MAX_PLACES : random_below(r, MAX_PLACES + 1);
    unsigned events = full ? MAX_EVENTS : 9 + random_below(r, MAX_EVENTS - 8);
    unsigned most = events * (events - 1) / 2 < MAX_PAIRS ? events * (events - 1) / 2 : MAX_PAIRS;

    if (full && number % 2 == 0)
        sheet_of_kind(&made, &kinds[number / 2 % kind_count], number);
    else
        sheet_of_size(&made, places, events, full ? most : random_below(r, most + 1), number);
    sheet->length = made.length;
    memcpy(sheet->at, made.bytes, made.length);
    set_openings(sheet, r);
}

// Adds a few pairs, or as many as there may be, half of the time on long sheets.
void make_export(struct bytes *sheet, struct random *r)
{
    unsigned pairs = get32(sheet->at + 28), is_long = get32(sheet->at + 20) > 8;
    unsigned more = random_below(r, is_long ? 2 : 32) == 0 ? MAX_PAIRS : 1 + random_below(r, 12);

    if (pairs + more > MAX_PAIRS)
        sheet->length = export_cut(sheet->at, sheet->length, random_below(r, pairs + 1));
    sheet->length = export_add(sheet->at, sheet->length, more, 1 + random_below(r, EXPORT_TWICE | EXPORT_SELF | EXPORT_STRUCK), r);
    if (random_below(r, 4) == 0)
        sheet->length = export_add(sheet->at, sheet->length, 1, EXPORT_BACK, r);
}

// Damages. Each leaves a sheet alone that has nothing of what it changes.

static void flip_bits(struct bytes *sheet, struct random *r)
{
    for (unsigned i = 1 + random_below(r, 3); i > 0 && sheet->length > 0; i--)
        sheet->at[random_below(r, (unsigned)sheet->length)] ^= (uint8_t)(1u << random_below(r, 8));
}

static void change_body(struct bytes *sheet, struct random *r)
{
    static const uint8_t values[] = {0, 1, 2, 3, 4, 8, 64, 232, 233, 255};

    if (sheet->length > 32)
        sheet->at[32 + random_below(r, (unsigned)sheet->length - 32)] = values[random_below(r, sizeof values)];
}

static void cut(struct bytes *sheet, struct random *r)
{
    unsigned from = random_below(r, 2) == 0 ? 0 : sheet->length > 4 ? (unsigned)sheet->length - 4 : 0;

    sheet->length = from + random_below(r, (unsigned)sheet->length - from + 1);
}

static void extend(struct bytes *sheet, struct random *r)
{
    unsigned more = random_below(r, 8) == 0 ? 5000 : 1 + random_below(r, 8);

    for (unsigned i = 0; i < more; i++)
        sheet->at[sheet->length++] = (uint8_t)random_below(r, 256);
}

// A start or a count of the table, by a little or to anything.
static void change_table(struct bytes *sheet, struct random *r)
{
    size_t at = 4 * random_below(r, 8);

    if (sheet->length < 32)
        return;
    switch (random_below(r, 4)) {
    case 0:
        set32(sheet->at + at, get32(sheet->at + at) + 1);
        break;
    case 1:
        set32(sheet->at + at, get32(sheet->at + at) - 1);
        break;
    case 2:
        set32(sheet->at + at, 1u << random_below(r, 32));
        break;
    default:
        set32(sheet->at + at, (uint32_t)random_next(r));
    }
}

// Two starts of the table by a little, each late or early.
static void move_starts(struct bytes *sheet, struct random *r)
{
    if (sheet->length < 32)
        return;
    for (int moved = 0; moved < 2; moved++) {
        size_t at = 8 * random_below(r, PLAN_ENTRIES);
        uint32_t by = 1 + random_below(r, 4);
        set32(sheet->at + at, random_below(r, 2) == 0 ? get32(sheet->at + at) + by : get32(sheet->at + at) - by);
    }
}

// One pair more, made of an old one: the other way round, the same again, or an event with itself.
static void add_pair(struct bytes *sheet, struct random *r)
{
    unsigned pairs = get32(sheet->at + 28);
    size_t start = get32(sheet->at + 24);

    if (sheet->length < 36 || pairs == 0 || pairs > MAX_PAIRS || sheet->length != start + 4 * pairs)
        return;
    uint32_t old = get32(sheet->at + start + 4 * random_below(r, pairs));
    uint32_t added[] = {old >> 16 | old << 16, old, (old & 0xffff) * 0x10001u};
    set32(sheet->at + 28, pairs + 1);
    put32(sheet, added[random_below(r, 3)]);
}

// One of the body's numbers just past its limit.
static void pass_limit(struct bytes *sheet, struct random *r)
{
    uint32_t places = get32(sheet->at + 4), transitions = get32(sheet->at + 12), events = get32(sheet->at + 20), pairs = get32(sheet->at + 28);
    const uint32_t count[] = {places, 2 * places * transitions, events, 2 * pairs}, past[] = {MAX_OPENING + 1, MAX_WEIGHT + 1, transitions, events};
    unsigned body = random_below(r, 4), size = body == 0 ? 4 : 2;

    if (sheet->length < 32 || count[body] == 0)
        return;
    size_t at = get32(sheet->at + 8 * body) + (size_t)size * random_below(r, count[body]);
    for (unsigned i = 0; i < size && at + i < sheet->length; i++)
        sheet->at[at + i] = (uint8_t)(past[body] >> 8 * i);
}

void make_damage(struct bytes *sheet, struct random *r)
{
    static void (*const ways[])(struct bytes *, struct random *) = {
        flip_bits, change_body, cut, extend, change_table, move_starts, add_pair, pass_limit,
    };
    enum { WAYS = sizeof ways / sizeof *ways };

    ways[random_below(r, WAYS)](sheet, r);
}
