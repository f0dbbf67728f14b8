// Times of working out "before" and of judging the faults of one sheet.
#ifndef ORDER_TIMES_H
#define ORDER_TIMES_H

#include "closing.h"
#include "sheets.h"

struct order_times {
    double closing[WAYS]; // "before" alone, from the pairs of the plan
    double fault[WAYS];   // the fault of the sheet, from its bytes
    double archive;       // the archive's fault call, where it is present
    int agree;            // whether all ways leave the same marks, and all find no fault
};

// Each time is the best of a few, in seconds; all take turns. So many calls are timed at once, and a time is that of one of them.
struct order_times time_order(const struct sheet *sheet, unsigned calls);

#endif
