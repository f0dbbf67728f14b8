// Times a listing and a plan judgement on one sheet, both by the archive's calls.
#include "listing.h"

#include "measure.h"

#ifdef HAVE_ARCHIVE
#include <stdlib.h>

#include "../include/reedanchor.h"

enum { TURNS = 5 };

struct listing_times time_listing(const struct sheet *sheet)
{
    static uint8_t text[REEDANCHOR_TEXT_LENGTH];
    static uint32_t row[REEDANCHOR_ROW_LENGTH];
    struct listing_times times = {0};
    uint32_t item, total, short_places, first;
    size_t written;

    for (int turn = 0; turn < TURNS; turn++) {
        double began = processor_time();
        uint32_t refused = reedanchor_plan(sheet->bytes, sheet->length, row, REEDANCHOR_ROW_LENGTH, &item, &total, &short_places, &first);
        keep_best(&times.judgement, began, turn);
        began = processor_time();
        refused |= reedanchor_listing(sheet->bytes, sheet->length, text, REEDANCHOR_TEXT_LENGTH, &written);
        keep_best(&times.listing, began, turn);
        if (refused != 0)
            abort();
    }
    return times;
}
#else
struct listing_times time_listing(const struct sheet *sheet)
{
    (void)sheet;
    return (struct listing_times){0};
}
#endif
