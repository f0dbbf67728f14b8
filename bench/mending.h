// Sheets to mend, and times of mending one and of judging faults beside it.
#ifndef MENDING_H
#define MENDING_H

#include "sheets.h"

// What the old export made of a sheet: nothing, a few of its pairs over and over, half of them among repeats, self-pairs and pairs that name no
// event, or all of them after one that names no event, at which the fault call ends while mending has all of them to keep.
enum mess { NO_MESS, FEW_REPEATED, MIXED, STRUCK_FIRST, MESSES };
extern const char *const mess_names[MESSES];

// Makes a mess of a faultless sheet, which has 1,024 pairs then, or as many as were there and one more.
void make_mess(struct sheet *sheet, enum mess mess, unsigned number);

struct mending_times {
    double mending;
    double given, clean, faultless; // the fault call on the sheet given, on the clean sheet, and on the faultless one that it was made of
};

// All by the archive's calls, which have to be there. Each time is the best of a few; all take turns.
struct mending_times time_mending(const struct sheet *given, const struct sheet *faultless);

#endif
