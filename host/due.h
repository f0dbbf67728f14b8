// What is due of a sheet, by the independent judge: worked out once, for all calls.
#ifndef DUE_H
#define DUE_H

#include "plan.h"
#include "reedanchor.h"

struct due {
    uint32_t fault, item;
    struct plan plan; // and all that follows is of no use where there is a fault
    uint32_t least[MAX_PLACES];
    uint8_t done[MAX_PLACES][MAX_EVENTS]; // the smallest done set of the greatest lack
    uint32_t missing[MAX_PLACES], total, short_places, first;
};

void due_of(struct due *due, const uint8_t *sheet, size_t length);

// How many tokens a place has to spare.
int32_t due_spare(const struct due *due, unsigned place);

enum { DUE_TEXT = 1 << 14 }; // more than any listing takes

// Writes the listing. Returns its length.
size_t due_listing(const struct due *due, char text[DUE_TEXT]);

#endif
