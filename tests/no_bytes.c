/* Sheets and rows of length 0, at null pointers and at the end of memory that must not be read, in every call. */
#include <stdlib.h>

#include "reedanchor.h"

/* A sheet without items: it needs no row but the listing's and the clean sheet's. */
static const uint8_t no_items[REEDANCHOR_TABLE_BYTES] = {[0] = 32, [8] = 32, [16] = 32, [24] = 32};

/* What the calls return with rows of length 0 at these pointers; the single numbers are 0 in every case. */
static int refuse(const uint8_t *sheet, size_t length, uint32_t *numbers, uint8_t *bytes, uint32_t sheet_fault)
{
    uint32_t judge, fault, plan, place, check, listing, mend, item[5] = {1, 1, 1, 1, 1}, total = 1, short_places = 1, first = 1, valid = 1;
    uint32_t place_fault = sheet_fault != 0 ? sheet_fault : REEDANCHOR_NO_PLACE;
    uint32_t row_fault = sheet_fault != 0 ? sheet_fault : REEDANCHOR_SHORT_ROW;
    int32_t spare = 1;
    size_t written[2] = {1, 1};

    judge = reedanchor_judge(sheet, length);
    fault = reedanchor_fault(sheet, length, &item[0]);
    plan = reedanchor_plan(sheet, length, numbers, 0, &item[1], &total, &short_places, &first);
    place = reedanchor_place(sheet, length, 0, numbers, 0, bytes, 0, &item[2], &spare);
    check = reedanchor_check_flow(sheet, length, 0, numbers, 0, &item[3], &valid);
    listing = reedanchor_listing(sheet, length, bytes, 0, &written[0]);
    mend = reedanchor_mend(sheet, length, bytes, 0, bytes, 0, &item[4], &written[1]);
    return judge == sheet_fault && fault == sheet_fault && plan == sheet_fault && place == place_fault && check == place_fault &&
           listing == REEDANCHOR_SHORT_ROW && mend == row_fault &&
           (item[0] | item[1] | item[2] | item[3] | item[4] | total | short_places | first | valid) == 0 && spare == 0 &&
           (written[0] | written[1]) == 0;
}

int main(void)
{
    uint32_t *numbers = malloc(sizeof *numbers);
    uint8_t *bytes = malloc(1);
    if (numbers == NULL || bytes == NULL)
        return 2;
    int due = refuse(NULL, 0, NULL, NULL, REEDANCHOR_NO_TABLE) && refuse(bytes + 1, 0, numbers + 1, bytes + 1, REEDANCHOR_NO_TABLE) &&
              refuse(no_items, sizeof no_items, NULL, NULL, 0) && refuse(no_items, sizeof no_items, numbers + 1, bytes + 1, 0);
    free(numbers);
    free(bytes);
    return due ? 0 : 1;
}
