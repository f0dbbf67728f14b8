// Everyday sheets: 3 to 12 places, 3 to 40 events, small weights.
#ifndef EVERYDAY_H
#define EVERYDAY_H

#include "sheets.h"

extern const struct kind everyday_kinds[];
extern const unsigned everyday_count;

// Sheet `number` of one of these kinds; opening counts are 0.
void everyday_sheet(struct sheet *sheet, const struct kind *kind, unsigned number);

#endif
