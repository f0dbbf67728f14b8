// Times working out "before" in three ways, and judging the faults of a sheet with each of them and with the archive.
#include "order_times.h"

#include "measure.h"

#include <stdlib.h>

enum { TURNS = 7 };

// Keeps the time of so many calls if it is the best so far. Returns whether none finds a cycle.
static int time_closing(enum way way, const struct plan *plan, unsigned calls, double *best, int turn)
{
    double began = processor_time();
    int cycle = 0;

    for (unsigned i = 0; i < calls; i++)
        cycle |= closing_cycle(way, plan);
    keep_best(best, began, turn);
    return !cycle;
}

// The same for the fault of a sheet.
static int time_fault(enum way way, const struct sheet *sheet, unsigned calls, double *best, int turn)
{
    double began = processor_time();
    uint32_t fault = 0;

    for (unsigned i = 0; i < calls; i++)
        fault |= closing_fault(way, sheet->bytes, sheet->length);
    keep_best(best, began, turn);
    return fault == 0;
}

#ifdef HAVE_ARCHIVE
#include "../include/reedanchor.h"

static int time_archive(const struct sheet *sheet, unsigned calls, double *best, int turn)
{
    double began = processor_time();
    uint32_t fault = 0, item;

    for (unsigned i = 0; i < calls; i++)
        fault |= reedanchor_fault(sheet->bytes, sheet->length, &item);
    keep_best(best, began, turn);
    return fault == 0;
}
#else
static int time_archive(const struct sheet *sheet, unsigned calls, double *best, int turn)
{
    (void)sheet;
    (void)calls;
    (void)best;
    (void)turn;
    return 1;
}
#endif

static void divide(struct order_times *times, unsigned calls)
{
    for (int way = 0; way < WAYS; way++) {
        times->closing[way] /= calls;
        times->fault[way] /= calls;
    }
    times->archive /= calls;
}

struct order_times time_order(const struct sheet *sheet, unsigned calls)
{
    static struct plan plan;
    struct order_times times = {0};

    if (plan_read(sheet->bytes, sheet->length, &plan) != 0)
        abort();
    times.agree = closings_agree(&plan);
    for (int turn = 0; turn < TURNS; turn++) {
        for (int way = 0; way < WAYS; way++) {
            times.agree &= time_closing(way, &plan, calls, &times.closing[way], turn);
            times.agree &= time_fault(way, sheet, calls, &times.fault[way], turn);
        }
        times.agree &= time_archive(sheet, calls, &times.archive, turn);
    }
    divide(&times, calls);
    return times;
}
