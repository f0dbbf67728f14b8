// An independent check of a flow at a place: document 01's rules 1 to 4, as they are written.
#ifndef FLOW_H
#define FLOW_H

#include "plan.h"

enum { RULES = 4 };

// The rules that a row breaks, a bit for each, bit 0 for rule 1. The row has a number for each pair and then a share for each event.
unsigned flow_broken(const struct plan *plan, unsigned place, const uint32_t *row);

#endif
