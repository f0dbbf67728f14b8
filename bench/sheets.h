// Sheets for the benchmark: an order with a net and opening counts, as bytes.
#ifndef SHEETS_H
#define SHEETS_H

#include "orders.h"

struct sheet {
    size_t length;
    uint8_t bytes[MAX_SHEET];
};

// Sheet `number` of a kind, with 64 places and 64 transitions; opening counts are 0.
void sheet_of_kind(struct sheet *sheet, const struct kind *kind, unsigned number);

// A random order with these numbers of places, events and pairs; opening counts are 0.
void sheet_of_size(struct sheet *sheet, unsigned places, unsigned events, unsigned pairs, unsigned number);

// An order with weights up to 3 at even numbers, else half of them 0 and the others up to 7; opening counts are 0.
void sheet_small(struct sheet *sheet, const struct order *order, unsigned places, unsigned transitions, unsigned number, struct random *r);

// Writes opening counts into a sheet.
void sheet_set_openings(struct sheet *sheet, const uint32_t *opening, unsigned places);

#endif
