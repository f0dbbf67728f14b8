// "Before" worked out in three ways: marks in bytes and in words by Warshall, and in words in an order of the events; and that order alone.
#ifndef CLOSING_H
#define CLOSING_H

#include "plan.h"

enum way { BYTES, WARSHALL, IN_ORDER, NO_ROWS, WAYS };
extern const char *const way_names[WAYS];

// Marks, from the pairs of a plan, what is after each event and what is before it; without rows, only orders the events. Returns whether there
// is a cycle.
int closing_cycle(enum way way, const struct plan *plan);

// Whether all ways but the last leave the same marks, which are those of the plan, read as a whole and without fault; the last one finds no cycle.
int closings_agree(const struct plan *plan);

// The fault of a sheet, or 0; a cycle is looked for in this way.
uint32_t closing_fault(enum way way, const uint8_t *sheet, size_t length);

#endif
