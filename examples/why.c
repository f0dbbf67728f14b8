/* Tells why a plan is short at a place, or shows that it runs there: the spare count, and with it the done set at which most tokens lack or
 * a flow that feeds every event.
 * Exit status: 0 the plan runs at every place that was asked for, 1 it doesn't or the call is refused, 2 wrong use, a file that can't be
 * read or an output that can't be written.
 * It is C (since C99) and C++ (since C++98) alike. */
#include <stdlib.h>

#include "sheet_file.h"

/* Rows that are long enough for every sheet. */
static uint32_t flow[REEDANCHOR_FLOW_LENGTH];
static uint8_t marks[REEDANCHOR_MARKS_LENGTH];

/* Faults 5 to 10 have an item: the first place, transition, event or pair at fault. */
static void print_refusal(uint32_t fault, uint32_t item)
{
    printf("refused with %u: %s", (unsigned)fault, fault_words(fault));
    if (fault >= REEDANCHOR_OVER_OPENING && fault <= REEDANCHOR_REPEATED_PAIR)
        printf(", item %u", (unsigned)item);
    printf("\n");
}

static void print_done_set(uint32_t events)
{
    int some = 0;
    printf("  most tokens lack once these events are done:");
    for (uint32_t v = 0; v < events; v++)
        if (marks[v]) {
            printf(" %u", (unsigned)v);
            some = 1;
        }
    printf(some ? "\n" : " none\n");
}

/* The pairs of a sheet without fault are its last body: two numbers of 2 bytes each, the lower byte first. */
static unsigned end_of_pair(const uint8_t *sheet, size_t length, uint32_t pairs, uint32_t pair, int later)
{
    const uint8_t *at = sheet + length - 4 * (size_t)(pairs - pair) + (later ? 2 : 0);
    return (unsigned)(at[0] | at[1] << 8);
}

static void print_flow(const uint8_t *sheet, size_t length, uint32_t events, uint32_t pairs)
{
    for (uint32_t i = 0; i < pairs; i++)
        if (flow[i] > 0)
            printf("  event %u passes %u to event %u\n", end_of_pair(sheet, length, pairs, i, 0), (unsigned)flow[i],
                   end_of_pair(sheet, length, pairs, i, 1));
    for (uint32_t v = 0; v < events; v++)
        if (flow[pairs + v] > 0)
            printf("  event %u gets %u of the opening tokens\n", (unsigned)v, (unsigned)flow[pairs + v]);
}

/* Prints what is found at a place. Returns whether the plan runs there. */
static int tell_place(const uint8_t *sheet, size_t length, size_t place)
{
    uint32_t item;
    int32_t spare;
    uint32_t fault = reedanchor_place(sheet, length, place, flow, REEDANCHOR_FLOW_LENGTH, marks, REEDANCHOR_MARKS_LENGTH, &item, &spare);
    if (fault != 0) {
        print_refusal(fault, item);
        return 0;
    }
    uint32_t events = REEDANCHOR_COUNT(sheet, REEDANCHOR_EVENTS), pairs = REEDANCHOR_COUNT(sheet, REEDANCHOR_PAIRS);
    if (spare < 0) {
        printf("place %lu is short: spare count %ld, so %ld missing\n", (unsigned long)place, (long)spare, -(long)spare);
        print_done_set(events);
        return 0;
    }
    printf("place %lu runs: spare count %ld\n", (unsigned long)place, (long)spare);
    print_flow(sheet, length, events, pairs);
    return 1;
}

/* Every place, or one line where the sheet is refused. Returns whether the plan runs. */
static int tell_all(const uint8_t *sheet, size_t length)
{
    static uint32_t row[REEDANCHOR_ROW_LENGTH];
    uint32_t item, total, short_places, first;
    uint32_t fault = reedanchor_plan(sheet, length, row, REEDANCHOR_ROW_LENGTH, &item, &total, &short_places, &first);
    if (fault != 0) {
        print_refusal(fault, item);
        return 0;
    }
    uint32_t places = REEDANCHOR_COUNT(sheet, REEDANCHOR_PLACES);
    for (uint32_t p = 0; p < places; p++)
        tell_place(sheet, length, p);
    if (short_places > 0)
        printf("short at %u of %u places, first at %u, %u missing in all\n", (unsigned)short_places, (unsigned)places, (unsigned)first,
               (unsigned)total);
    else
        printf("the plan runs\n");
    return short_places == 0;
}

int main(int argc, char **argv)
{
    static uint8_t sheet[REEDANCHOR_ENOUGH_BYTES];
    size_t length;
    char *end = NULL;
    unsigned long place = 0;
    if (argc == 3)
        place = strtoul(argv[2], &end, 10);
    if (argc < 2 || argc > 3 || (argc == 3 && (argv[2][0] < '0' || argv[2][0] > '9' || *end != '\0'))) {
        fprintf(stderr, "usage: why SHEET [PLACE]    SHEET is a file that holds one sheet, PLACE a place's number; if not given, every place\n");
        return 2;
    }
    if (!read_sheet("why", argv[1], sheet, &length))
        return 2;
    int runs = argc == 3 ? tell_place(sheet, length, place) : tell_all(sheet, length);
    return finish("why", runs ? 0 : 1);
}
