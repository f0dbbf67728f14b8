// Times of the archive and its peers on one sheet, and whether they agree.
#ifndef MEASURE_H
#define MEASURE_H

#include "sheets.h"

enum { LIBRARIES = 3, MAX_SHEETS = 99 };

struct library {
    const char *name;
    void (*least)(const struct plan *plan, uint32_t *least); // null where it isn't installed
};

extern const struct library libraries[LIBRARIES];
unsigned libraries_present(void);
int archive_present(void);

struct times {
    double archive, independent; // the whole sheet, from its bytes
    double library[LIBRARIES];   // the flows of all places; before and skeleton are given
    int fastest;                 // the fastest library, or -1 where none is installed
    int agree;                   // whether all counts and verdicts are the same
};

// Gives the sheet opening counts that are just enough, or at odd numbers just one too few at the last place that needs any.
void choose_openings(struct sheet *sheet, unsigned number);

// Chooses opening counts as above, and judges the sheet with all. Each time is the best of a few; all take turns. So many calls are timed at
// once, and a time is that of one of them.
struct times measure(struct sheet *sheet, unsigned number, unsigned calls);

// The archive's time over the fastest library's, or over the independent judge's where no library is installed.
double ratio(const struct times *times);

// Processor time: on a busy machine the clock on the wall counts other programs too, and more so for a judge that takes longer.
double processor_time(void);

// Keeps the time since this one if it is the best so far, or the first.
void keep_best(double *best, double began, int turn);

// Of a row that gets sorted.
double median(double *row, unsigned count);

#endif
