// How much stack each call uses, on sheets at the limits of every kind and on sheets of small plans: each is made on a stack of its own that is
// painted before and scanned after. Fails where a call uses more than the header says is enough.
#define _GNU_SOURCE
#include <stdio.h>
#include <stdlib.h>
#include <string.h>
#include <sys/mman.h>
#include <ucontext.h>
#include <unistd.h>

#include "independent.h"
#include "old_export.h"
#include "reedanchor.h"
#include "sheets.h"

enum { STACK_BYTES = 4 << 20, PAINT = 0xa5, NUMBERS = 2, SMALL_PLANS = 8, PLACE_STEP = 9 };

// The sizes of a plan that the header has numbers for.
enum size { UP_TO_256, UP_TO_64, UP_TO_16, SIZES };

static const unsigned most_events[SIZES] = {MAX_EVENTS, 64, 16};

static struct sheet sheet;
static size_t place;
static uint32_t missing[REEDANCHOR_ROW_LENGTH], flow[REEDANCHOR_FLOW_LENGTH];
static uint8_t marks[REEDANCHOR_MARKS_LENGTH], text[REEDANCHOR_TEXT_LENGTH], clean[REEDANCHOR_CLEAN_LENGTH], reasons[REEDANCHOR_REASONS_LENGTH];
static uint32_t fault; // what the last call returned

static void call_judge(void)
{
    fault = reedanchor_judge(sheet.bytes, sheet.length);
}

static void call_fault(void)
{
    uint32_t item;

    fault = reedanchor_fault(sheet.bytes, sheet.length, &item);
}

static void call_plan(void)
{
    uint32_t item, total, short_places, first;

    fault = reedanchor_plan(sheet.bytes, sheet.length, missing, REEDANCHOR_ROW_LENGTH, &item, &total, &short_places, &first);
}

static void call_place(void)
{
    uint32_t item;
    int32_t spare;

    fault = reedanchor_place(sheet.bytes, sheet.length, place, flow, REEDANCHOR_FLOW_LENGTH, marks, REEDANCHOR_MARKS_LENGTH, &item, &spare);
}

static void call_check_flow(void)
{
    uint32_t item, valid;

    fault = reedanchor_check_flow(sheet.bytes, sheet.length, place, flow, REEDANCHOR_FLOW_LENGTH, &item, &valid);
}

static void call_listing(void)
{
    size_t written;

    fault = reedanchor_listing(sheet.bytes, sheet.length, text, REEDANCHOR_TEXT_LENGTH, &written);
}

static void call_mend(void)
{
    uint32_t item;
    size_t written;

    fault = reedanchor_mend(sheet.bytes, sheet.length, clean, REEDANCHOR_CLEAN_LENGTH, reasons, REEDANCHOR_REASONS_LENGTH, &item, &written);
}

// The calls, in an order in which each is measured; the flow check gets the flow that the place judgement left.
static struct {
    const char *name;
    void (*make)(void);
    size_t enough[SIZES], most[SIZES]; // bytes by the header, and the most used
    int at_places, mends;
} calls[] = {
    {"judge", call_judge, {REEDANCHOR_STACK_JUDGE, REEDANCHOR_STACK_JUDGE_64, REEDANCHOR_STACK_JUDGE_16}, {0}, 0, 0},
    {"fault", call_fault, {REEDANCHOR_STACK_FAULT, REEDANCHOR_STACK_FAULT, REEDANCHOR_STACK_FAULT}, {0}, 0, 0},
    {"plan", call_plan, {REEDANCHOR_STACK_PLAN, REEDANCHOR_STACK_PLAN_64, REEDANCHOR_STACK_PLAN_16}, {0}, 0, 0},
    {"place", call_place, {REEDANCHOR_STACK_PLACE, REEDANCHOR_STACK_PLACE_64, REEDANCHOR_STACK_PLACE_16}, {0}, 1, 0},
    {"check_flow", call_check_flow, {REEDANCHOR_STACK_CHECK_FLOW, REEDANCHOR_STACK_CHECK_FLOW, REEDANCHOR_STACK_CHECK_FLOW}, {0}, 1, 0},
    {"listing", call_listing, {REEDANCHOR_STACK_LISTING, REEDANCHOR_STACK_LISTING_64, REEDANCHOR_STACK_LISTING_16}, {0}, 0, 0},
    {"mend", call_mend, {REEDANCHOR_STACK_MEND, REEDANCHOR_STACK_MEND, REEDANCHOR_STACK_MEND}, {0}, 0, 1},
};

enum { CALLS = sizeof calls / sizeof *calls };

static uint8_t *stack; // STACK_BYTES of it, above a forbidden page
static enum size size; // that of the sheet's plan

static void open_stack(void)
{
    size_t page = (size_t)sysconf(_SC_PAGESIZE);
    uint8_t *all = mmap(NULL, STACK_BYTES + page, PROT_READ | PROT_WRITE, MAP_PRIVATE | MAP_ANONYMOUS, -1, 0);

    if (all == MAP_FAILED || mprotect(all, page, PROT_NONE) != 0) {
        perror("stack");
        exit(2);
    }
    stack = all + page;
    memset(stack, PAINT, STACK_BYTES);
}

// Makes a call on the painted stack. Returns how many bytes of it were used, and paints them again.
static size_t used_by(void (*make)(void))
{
    ucontext_t caller, called;
    size_t clean = 0;

    if (getcontext(&called) != 0)
        exit(2);
    called.uc_stack.ss_sp = stack;
    called.uc_stack.ss_size = STACK_BYTES;
    called.uc_link = &caller;
    makecontext(&called, make, 0);
    if (swapcontext(&caller, &called) != 0)
        exit(2);
    while (clean < STACK_BYTES && stack[clean] == PAINT)
        clean++;
    memset(stack + clean, PAINT, STACK_BYTES - clean);
    return STACK_BYTES - clean;
}

static void measure(unsigned call)
{
    size_t used = used_by(calls[call].make);

    if (used > calls[call].most[size])
        calls[call].most[size] = used;
    if (fault != 0 && (call != 0 || fault < REEDANCHOR_SHORT)) {
        fprintf(stderr, "stack: %s refuses a sheet: %u\n", calls[call].name, fault);
        exit(1);
    }
}

// Places run with just enough tokens and are short of one by turns.
static void set_openings(void)
{
    static struct plan plan;
    uint32_t opening[MAX_PLACES];

    if (plan_read(sheet.bytes, sheet.length, &plan) != 0)
        exit(2);
    for (unsigned p = 0; p < plan.places; p++) {
        uint32_t least = independent_least(&plan, p, NULL);
        opening[p] = least > 0 && p % 2 == 1 ? least - 1 : least;
    }
    sheet_set_openings(&sheet, opening, plan.places);
}

static void measure_all(void)
{
    for (unsigned call = 0; call < CALLS; call++)
        if (!calls[call].at_places)
            measure(call);
    for (place = 0; place < MAX_PLACES; place += PLACE_STEP)
        for (unsigned call = 0; call < CALLS; call++)
            if (calls[call].at_places)
                measure(call);
}

// The sheet as the old export would write it, with pairs to drop for every reason, which mending alone takes.
static void measure_mending(struct random *r)
{
    sheet.length = export_cut(sheet.bytes, sheet.length, MAX_PAIRS / 2);
    sheet.length = export_add(sheet.bytes, sheet.length, MAX_PAIRS, EXPORT_TWICE | EXPORT_SELF | EXPORT_STRUCK, r);
    for (unsigned call = 0; call < CALLS; call++)
        if (calls[call].mends)
            measure(call);
}

static void measure_sheet(struct random *r)
{
    set_openings();
    measure_all();
    measure_mending(r);
}

// Prints the most that each call used on plans of this size. Returns whether that is within what the header says.
static int print_used(enum size of, unsigned sheets)
{
    int enough = 1;

    printf("bytes of stack, at most, on %u sheets of up to %u events:", sheets, most_events[of]);
    for (unsigned call = 0; call < CALLS; call++) {
        printf("%s %s %zu of %zu", call == 0 ? "" : ",", calls[call].name, calls[call].most[of], calls[call].enough[of]);
        enough = enough && calls[call].most[of] <= calls[call].enough[of];
    }
    printf("\n");
    return enough;
}

int main(void)
{
    struct random r = {13};
    int enough;

    open_stack();
    for (unsigned kind = 0; kind < kind_count; kind++)
        for (unsigned number = 0; number < NUMBERS; number++) {
            sheet_of_kind(&sheet, &kinds[kind], number);
            measure_sheet(&r);
        }
    enough = print_used(UP_TO_256, kind_count * NUMBERS);
    for (size = UP_TO_64; size < SIZES; size++) {
        for (unsigned number = 0; number < SMALL_PLANS; number++) {
            unsigned events = most_events[size], pairs = number % 2 == 0 ? events : 4 * events;
            sheet_of_size(&sheet, MAX_PLACES, events, pairs, number);
            measure_sheet(&r);
        }
        enough &= print_used(size, SMALL_PLANS);
    }
    if (!enough)
        fprintf(stderr, "stack: a call uses more than include/reedanchor.h says is enough\n");
    return enough ? 0 : 1;
}
