// Makes sheets to mend, and times mending one and judging faults beside it, by the archive's calls.
#include "mending.h"

#include "measure.h"
#include "old_export.h"

enum { FEW = 8, TURNS = 25 };

const char *const mess_names[MESSES] = {"faultless", "a few pairs repeated", "every reason", "the first names no event"};

void make_mess(struct sheet *sheet, enum mess mess, unsigned number)
{
    struct random r = {number};

    if (mess == NO_MESS)
        return;
    if (mess == STRUCK_FIRST) {
        sheet->length = export_cut(sheet->bytes, sheet->length, MAX_PAIRS - 1);
        sheet->length = export_struck_first(sheet->bytes, sheet->length, &r);
        return;
    }
    sheet->length = export_cut(sheet->bytes, sheet->length, mess == FEW_REPEATED ? FEW : MAX_PAIRS / 2);
    sheet->length = export_add(sheet->bytes, sheet->length, MAX_PAIRS,
                               mess == FEW_REPEATED ? EXPORT_TWICE : EXPORT_TWICE | EXPORT_SELF | EXPORT_STRUCK, &r);
}

#ifdef HAVE_ARCHIVE
#include <stdlib.h>

#include "../include/reedanchor.h"

// Keeps the time of a fault call if it is the best so far. Returns the fault.
static uint32_t time_fault(const uint8_t *sheet, size_t length, double *best, int turn)
{
    uint32_t item;
    double began = processor_time();
    uint32_t fault = reedanchor_fault(sheet, length, &item);

    keep_best(best, began, turn);
    return fault;
}

struct mending_times time_mending(const struct sheet *given, const struct sheet *faultless)
{
    static uint8_t clean[REEDANCHOR_CLEAN_LENGTH], reasons[REEDANCHOR_REASONS_LENGTH];
    struct mending_times times = {0};
    uint32_t item;
    size_t written;

    for (int turn = 0; turn < TURNS; turn++) {
        double began = processor_time();
        uint32_t refused = reedanchor_mend(given->bytes, given->length, clean, sizeof clean, reasons, sizeof reasons, &item, &written);
        keep_best(&times.mending, began, turn);
        time_fault(given->bytes, given->length, &times.given, turn);
        refused |= time_fault(clean, written, &times.clean, turn);
        refused |= time_fault(faultless->bytes, faultless->length, &times.faultless, turn);
        if (refused != 0)
            abort();
    }
    return times;
}
#else
struct mending_times time_mending(const struct sheet *given, const struct sheet *faultless)
{
    (void)given;
    (void)faultless;
    return (struct mending_times){0};
}
#endif
