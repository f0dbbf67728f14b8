// The pairs of a sheet as the old export writes them: some twice, some from an event to itself, some to events that were struck out.
#ifndef OLD_EXPORT_H
#define OLD_EXPORT_H

#include "random.h"

#include <stddef.h>

// Kinds of pair to add; any of them together.
enum {
    EXPORT_TWICE = 1,  // one that is there already, whatever it is
    EXPORT_SELF = 2,   // from an event to itself
    EXPORT_STRUCK = 4, // one that names no event, at one end or at both
    EXPORT_BACK = 8,   // one that is there, the other way round
};

// Both take a sheet with a right table of contents and return its length then.

// Adds pairs of these kinds, each anywhere among the others, and none where there is nothing to make it of or beyond the limit of pairs. There
// has to be room for them.
size_t export_add(uint8_t *sheet, size_t length, unsigned more, unsigned kinds, struct random *r);

// Adds one pair that names no event before all others, if the limit of pairs lets it.
size_t export_struck_first(uint8_t *sheet, size_t length, struct random *r);

// Leaves the first pairs, so many of them, or all if there are fewer.
size_t export_cut(uint8_t *sheet, size_t length, unsigned pairs);

#endif
