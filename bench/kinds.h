// All kinds of sheet, those of orders.c and then the everyday ones, with how many sheets a run makes of each and how they are timed.
#ifndef KINDS_H
#define KINDS_H

#include "measure.h"

enum { EVERYDAY_TIMES = 10, FEWEST_EVERYDAY = 49, MOST_SHEETS = EVERYDAY_TIMES * MAX_SHEETS };

unsigned all_kinds(void);
int kind_is_everyday(const struct kind *kind);
const struct kind *kind_at(unsigned k);

// How many sheets of a kind are made, where so many are asked for. Everyday sheets are small and differ more, so there are more of them.
unsigned sheets_of(const struct kind *kind, unsigned sheets);

// How many calls are timed at once: one, or many where the same sheet is judged again and again, and the clock's own time counts for nothing.
unsigned calls_of(const struct kind *kind);

// Sheet `number` of any kind; opening counts are 0.
void any_sheet(struct sheet *sheet, const struct kind *kind, unsigned number);

#endif
