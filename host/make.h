// Random sheets, short and long, and ways to damage them.
#ifndef MAKE_H
#define MAKE_H

#include "random.h"
#include "sheets.h"

enum { MOST_BYTES = 1 << 15 }; // a sheet with its damages is no longer than this

struct bytes {
    size_t length;
    uint8_t at[MOST_BYTES];
};

// A faultless sheet of up to 4 places and 8 events.
void make_short(struct bytes *sheet, struct random *r);

// A faultless sheet of up to 64 places, 256 events and 1,024 pairs, at the limits if `full`.
void make_long(struct bytes *sheet, struct random *r, unsigned number, int full);

// Writes the pairs of a faultless sheet as the old export does: some twice, some from an event to itself, some that name no event, or all of
// these, and some with a cycle.
void make_export(struct bytes *sheet, struct random *r);

// Damages a sheet in one of several ways.
void make_damage(struct bytes *sheet, struct random *r);

#endif
