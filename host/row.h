// Rows as they are lent to a call: between forbidden pages, full of junk, and long enough or too short.
#ifndef ROW_H
#define ROW_H

#include "guarded.h"
#include "random.h"

enum { ROW_BYTES = 1 << 15, ROW_MORE = 8 }; // the longest row, and how many entries more than needed it may have

struct row {
    struct guarded memory;
    size_t size, greatest; // of an entry, in bytes; the length that does for every sheet, in entries
    size_t length;         // in entries
    enum side side;
    void *at;                  // what the call is given; null for some rows of length 0
    uint8_t before[ROW_BYTES]; // what stands there before the call
};

void row_open(struct row *row, size_t size, size_t greatest, enum access access);

// Lends a row of exactly the entries needed, of some more, or of the greatest length.
void row_lend_enough(struct row *row, size_t needed, struct random *r);

// Lends a row with an entry too few, with many too few, or with none. Where none are needed, it has none, which is enough.
void row_lend_short(struct row *row, size_t needed, struct random *r);

// Puts entries at the start of a row that is lent, as many as it has room for.
void row_put(struct row *row, const void *entries, size_t count);

// Whether the entries from this one on are what they were before the call.
int row_kept_from(const struct row *row, size_t entry);

#endif
