// Memory between two pages that can't be touched at all; whoever is tested can only read it, or write it too.
#ifndef GUARDED_H
#define GUARDED_H

#include <stddef.h>
#include <stdint.h>

enum { GUARDED_BYTES = 1 << 16 }; // the most that can be put there

enum access { READ_ONLY, READ_AND_WRITE };

// Right after the first forbidden page, or right before the last one.
enum side { AT_THE_START, AT_THE_END };

struct guarded {
    uint8_t *inside; // writable, for guarded_put alone
    uint8_t *lent;   // the same memory between the forbidden pages
};

// Stops the program if the memory can't be had.
void guarded_open(struct guarded *memory, enum access access);

// Copies bytes into the memory, and returns where they stand to be lent.
uint8_t *guarded_put(const struct guarded *memory, enum side side, const void *bytes, size_t length);

#endif
