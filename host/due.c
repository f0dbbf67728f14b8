// What is due of a sheet, by the independent judge: worked out once, for all calls.
#include "due.h"

#include "independent.h"

int32_t due_spare(const struct due *due, unsigned place)
{
    return (int32_t)due->plan.opening[place] - (int32_t)due->least[place];
}

void due_of(struct due *due, const uint8_t *sheet, size_t length)
{
    due->fault = plan_read(sheet, length, &due->plan);
    due->item = due->plan.item;
    due->total = due->short_places = due->first = 0;
    for (unsigned p = 0; due->fault == 0 && p < due->plan.places; p++) {
        due->least[p] = independent_least(&due->plan, p, due->done[p]);
        due->missing[p] = due_spare(due, p) < 0 ? (uint32_t)-due_spare(due, p) : 0;
        if (due->missing[p] > 0 && due->short_places++ == 0)
            due->first = p;
        due->total += due->missing[p];
    }
}
