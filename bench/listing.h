// Times of a listing and of a plan judgement on one sheet.
#ifndef LISTING_H
#define LISTING_H

#include "sheets.h"

struct listing_times {
    double listing, judgement;
};

// Both by the archive's calls, which have to be there. Each time is the best of a few; the two take turns.
struct listing_times time_listing(const struct sheet *sheet);

#endif
