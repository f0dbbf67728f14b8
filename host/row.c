// Rows as they are lent to a call: between forbidden pages, full of junk, and long enough or too short.
#include "row.h"

#include <string.h>

void row_open(struct row *row, size_t size, size_t greatest, enum access access)
{
    guarded_open(&row->memory, access);
    row->size = size;
    row->greatest = greatest;
}

// Lends a row of junk right before or right after a forbidden page. An empty one is at a null pointer half of the time.
static void lend(struct row *row, size_t length, struct random *r)
{
    row->length = length;
    row->side = random_below(r, 2) == 0 ? AT_THE_START : AT_THE_END;
    for (size_t i = 0; i < row->size * length; i += sizeof(uint64_t)) {
        uint64_t junk = random_next(r);
        memcpy(row->before + i, &junk, sizeof junk);
    }
    row->at = guarded_put(&row->memory, row->side, row->before, row->size * length);
    if (length == 0 && random_below(r, 2) == 0)
        row->at = NULL;
}

void row_lend_enough(struct row *row, size_t needed, struct random *r)
{
    const size_t lengths[] = {needed, needed, needed + 1 + random_below(r, ROW_MORE), row->greatest};

    lend(row, lengths[random_below(r, 4)], r);
}

void row_lend_short(struct row *row, size_t needed, struct random *r)
{
    const size_t lengths[] = {needed - 1, needed - 1, random_below(r, (unsigned)needed + (needed == 0)), 0};

    lend(row, needed == 0 ? 0 : lengths[random_below(r, 4)], r);
}

void row_put(struct row *row, const void *entries, size_t count)
{
    size_t bytes = row->size * (count < row->length ? count : row->length);

    if (bytes > 0)
        memcpy(row->before, entries, bytes);
    guarded_put(&row->memory, row->side, row->before, row->size * row->length);
}

int row_kept_from(const struct row *row, size_t entry)
{
    size_t from = row->size * entry, bytes = row->size * row->length;

    return from >= bytes || memcmp((const uint8_t *)row->at + from, row->before + from, bytes - from) == 0;
}
