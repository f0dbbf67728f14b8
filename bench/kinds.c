// All kinds of sheet in one row: those of orders.c and then the everyday ones.
#include "kinds.h"

#include "everyday.h"

enum { REPEATED_CALLS = 50 };

int kind_is_everyday(const struct kind *kind)
{
    return kind->group == EVERYDAY || kind->group == EVERYDAY_REPEATED;
}

unsigned all_kinds(void)
{
    return kind_count + everyday_count;
}

const struct kind *kind_at(unsigned k)
{
    return k < kind_count ? &kinds[k] : &everyday_kinds[k - kind_count];
}

unsigned sheets_of(const struct kind *kind, unsigned sheets)
{
    if (!kind_is_everyday(kind))
        return sheets;
    return EVERYDAY_TIMES * sheets > FEWEST_EVERYDAY ? EVERYDAY_TIMES * sheets : FEWEST_EVERYDAY;
}

unsigned calls_of(const struct kind *kind)
{
    return kind->group == EVERYDAY_REPEATED ? REPEATED_CALLS : 1;
}

void any_sheet(struct sheet *sheet, const struct kind *kind, unsigned number)
{
    if (kind_is_everyday(kind))
        everyday_sheet(sheet, kind, number);
    else
        sheet_of_kind(sheet, kind, number);
}
