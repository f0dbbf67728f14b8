// A judge for plans of a few events: it walks all done sets.
#ifndef WALK_H
#define WALK_H

#include "plan.h"

enum { WALK_EVENTS = 10 }; // the most events that it takes

// The least opening count with which the plan runs at a place. `done` gets a byte for each event: 1 for those that are in every done
// set with the greatest lack, else 0.
uint32_t walk_least(const struct plan *plan, unsigned place, uint8_t *done);

#endif
