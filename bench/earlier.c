// Compares the archive with an earlier one: the fault call and the till server's, by turns.
//
// Both are loaded as shared libraries, so that an archive beside itself gives 1. Where the linker puts the same code makes up to 1.4 times its
// time: fault::examine of one archive took 43 or 61 microseconds on one sheet, by its address within 64 bytes. Of two archives, either may be
// the luckier one.
#include "earlier.h"

#include "kinds.h"

#include <dlfcn.h>
#include <stdio.h>
#include <stdlib.h>

enum { TURNS = 7, FEWEST_CALLS = 5, MOST = 40, MOST_EVERYDAY = 100 }; // the last two in hundredths of the earlier time

struct archive {
    uint32_t (*fault)(const uint8_t *sheet, size_t length, uint32_t *item);
    uint32_t (*judge)(const uint8_t *sheet, size_t length);
};

static struct archive before, after; // null where none is loaded

// Loads the library that a variable names. Returns whether that can be done.
static int load(const char *variable, struct archive *archive)
{
    const char *name = getenv(variable);
    void *library = name == NULL ? NULL : dlopen(name, RTLD_NOW | RTLD_LOCAL);

    if (library != NULL) {
        *(void **)&archive->fault = dlsym(library, "reedanchor_fault");
        *(void **)&archive->judge = dlsym(library, "reedanchor_judge");
    }
    if (archive->fault != NULL && archive->judge != NULL)
        return 1;
    fprintf(stderr, "%s names no library with both calls: %s\n", variable, name == NULL ? "it isn't set" : library == NULL ? dlerror() : name);
    return 0;
}

int earlier_load(void)
{
    const char *name = getenv("BEFORE");

    return name == NULL || *name == '\0' || (load("BEFORE", &before) && load("AFTER", &after));
}

// Keeps the time of so many fault calls if it is the best so far. Returns the fault.
static uint32_t time_fault(const struct archive *archive, const struct sheet *sheet, unsigned calls, double *best, int turn)
{
    double began = processor_time();
    uint32_t fault = 0, item;

    for (unsigned i = 0; i < calls; i++)
        fault |= archive->fault(sheet->bytes, sheet->length, &item);
    keep_best(best, began, turn);
    return fault;
}

// The same for the till server's call.
static uint32_t time_judge(const struct archive *archive, const struct sheet *sheet, unsigned calls, double *best, int turn)
{
    double began = processor_time();
    uint32_t answer = 0;

    for (unsigned i = 0; i < calls; i++)
        answer |= archive->judge(sheet->bytes, sheet->length);
    keep_best(best, began, turn);
    return answer;
}

// The two ratios of a sheet. Returns whether both archives say the same of it.
static int compare(const struct sheet *sheet, unsigned calls, double *fault_ratio, double *judge_ratio)
{
    double fault[2], judge[2];
    int agree = 1;

    for (int turn = 0; turn < TURNS; turn++) {
        uint32_t due = time_fault(&before, sheet, calls, &fault[0], turn);
        agree &= time_fault(&after, sheet, calls, &fault[1], turn) == due;
        due = time_judge(&before, sheet, calls, &judge[0], turn);
        agree &= time_judge(&after, sheet, calls, &judge[1], turn) == due;
    }
    *fault_ratio = fault[1] / fault[0];
    *judge_ratio = judge[1] / judge[0];
    return agree;
}

// Whether the ratio, as it is printed, is above the bar.
static int misses(const struct kind *kind, double ratio)
{
    return (int)(100 * ratio + 0.5) > (kind_is_everyday(kind) ? MOST_EVERYDAY : MOST);
}

static unsigned print_kind(const struct kind *kind, unsigned sheets, int *missed)
{
    static struct sheet sheet;
    static double fault[MOST_SHEETS], judge[MOST_SHEETS];
    unsigned differ = 0, calls = calls_of(kind) > FEWEST_CALLS ? calls_of(kind) : FEWEST_CALLS;

    for (unsigned i = 0; i < sheets; i++) {
        any_sheet(&sheet, kind, i);
        choose_openings(&sheet, i);
        int agree = compare(&sheet, calls, &fault[i], &judge[i]);
        if (!agree)
            printf("differ: %s, sheet %u\n", kind->name, i);
        differ += !agree;
    }
    double fault_middle = median(fault, sheets), judge_middle = median(judge, sheets);
    int misses_it = misses(kind, fault_middle);
    printf("%-24s   %-8.2f %-8.2f %-8.2f %-8.2f %s\n", kind->name, fault_middle, fault[sheets - 1], judge_middle, judge[sheets - 1],
           misses_it ? "missed" : "met");
    *missed |= misses_it;
    return differ;
}

unsigned print_earlier(unsigned sheets, int *missed)
{
    unsigned differ = 0;

    if (before.fault == NULL)
        return 0;
    printf("\nThe archive's time over that of the earlier one: judging faults, and the till server's call\n");
    printf("%-24s   %-17s %-17s %s\n", "kind", "fault", "till server's", "bar");
    printf("%-24s   %-8s %-8s %-8s %-8s\n", "", "median", "worst", "median", "worst");
    for (unsigned k = 0; k < all_kinds(); k++)
        differ += print_kind(kind_at(k), sheets_of(kind_at(k), sheets), missed);
    return differ;
}

void print_earlier_bar(int missed)
{
    if (before.fault == NULL)
        return;
    printf("Fault: at the median of each kind at most %.1f of the earlier archive's time, of an everyday kind %.1f.\n%s\n", MOST / 100.0,
           MOST_EVERYDAY / 100.0, missed ? "missed" : "met");
}
