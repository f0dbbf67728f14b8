// Measures one sheet: who judges it, how long it takes each of them, and whether they agree.
#define _POSIX_C_SOURCE 199309L
#include "measure.h"

#include "independent.h"
#include "peers.h"

#include <stdlib.h>
#include <string.h>
#include <time.h>

#ifdef HAVE_ARCHIVE
#include "../include/reedanchor.h"
#else
#define reedanchor_judge NULL
#endif

#ifndef HAVE_LEMON
#define lemon_least NULL
#endif
#ifndef HAVE_BOOST
#define boost_least NULL
#endif
#ifndef HAVE_KOLMOGOROV
#define kolmogorov_least NULL
#endif

enum { TURNS = 3, BATCH_TURNS = 9 };

static uint32_t (*const archive)(const uint8_t *sheet, size_t length) = reedanchor_judge;

const struct library libraries[LIBRARIES] = {
    {"LEMON", lemon_least},
    {"Boost", boost_least},
    {"Kolmogorov", kolmogorov_least},
};

int archive_present(void)
{
    return archive != NULL;
}

unsigned libraries_present(void)
{
    unsigned present = 0;

    for (int i = 0; i < LIBRARIES; i++)
        present += libraries[i].least != NULL;
    return present;
}

double processor_time(void)
{
    struct timespec t;

    clock_gettime(CLOCK_PROCESS_CPUTIME_ID, &t);
    return (double)t.tv_sec + 1e-9 * (double)t.tv_nsec;
}

void keep_best(double *best, double began, int turn)
{
    double time = processor_time() - began;

    if (turn == 0 || *best <= 0 || (time > 0 && time < *best)) // the clock may stand still for a turn
        *best = time;
}

// Reads the plan of a sheet, and works out the least opening count of each place.
static void read_plan(const struct sheet *sheet, struct plan *plan, uint32_t *least)
{
    if (plan_read(sheet->bytes, sheet->length, plan) != 0)
        abort();
    for (unsigned p = 0; p < plan->places; p++)
        least[p] = independent_least(plan, p, NULL);
}

// Writes the opening counts for this number; returns the answer that the till server has to get.
static uint32_t write_openings(struct sheet *sheet, const uint32_t *least, unsigned places, unsigned number)
{
    uint32_t opening[MAX_PLACES], answer = 0;

    memcpy(opening, least, places * sizeof *least);
    for (unsigned p = places; p-- > 0 && number % 2 == 1 && answer == 0;)
        if (opening[p] > 0) {
            opening[p]--;
            answer = 1000 + p;
        }
    sheet_set_openings(sheet, opening, places);
    return answer;
}

void choose_openings(struct sheet *sheet, unsigned number)
{
    static struct plan plan;
    uint32_t least[MAX_PLACES];

    read_plan(sheet, &plan, least);
    write_openings(sheet, least, plan.places, number);
}

typedef uint32_t till_call(const uint8_t *sheet, size_t length);

// Keeps the time of so many calls if it is the best so far. Returns whether all have the answer.
static int time_till(till_call *judge, const struct sheet *sheet, uint32_t answer, unsigned calls, double *best, int turn)
{
    double began = processor_time();
    int agree = 1;

    for (unsigned i = 0; i < calls; i++)
        agree &= judge(sheet->bytes, sheet->length) == answer;
    keep_best(best, began, turn);
    return agree;
}

// The same for a library, where it is installed.
static int time_library(const struct library *library, const struct plan *plan, const uint32_t *least, unsigned calls, double *best, int turn)
{
    uint32_t found[MAX_PLACES];

    if (library->least == NULL)
        return 1;
    double began = processor_time();
    for (unsigned i = 0; i < calls; i++)
        library->least(plan, found);
    keep_best(best, began, turn);
    return memcmp(least, found, plan->places * sizeof *least) == 0;
}

// Times of one call each, and the fastest library.
static void finish(struct times *times, unsigned calls)
{
    times->archive /= calls;
    times->independent /= calls;
    for (int i = 0; i < LIBRARIES; i++) {
        times->library[i] /= calls;
        if (libraries[i].least != NULL && (times->fastest < 0 || times->library[i] < times->library[times->fastest]))
            times->fastest = i;
    }
}

struct times measure(struct sheet *sheet, unsigned number, unsigned calls)
{
    static struct plan plan;
    struct times times = {.fastest = -1, .agree = 1};
    uint32_t least[MAX_PLACES];

    read_plan(sheet, &plan, least);
    uint32_t answer = write_openings(sheet, least, plan.places, number);

    for (int turn = 0; turn < (calls > 1 ? BATCH_TURNS : TURNS); turn++) {
        times.agree &= time_till(archive != NULL ? archive : independent_till, sheet, answer, calls, &times.archive, turn); // the latter stands in
        times.agree &= time_till(independent_till, sheet, answer, calls, &times.independent, turn);
        for (int i = 0; i < LIBRARIES; i++)
            times.agree &= time_library(&libraries[i], &plan, least, calls, &times.library[i], turn);
    }
    finish(&times, calls);
    return times;
}

double ratio(const struct times *times)
{
    return times->archive / (times->fastest < 0 ? times->independent : times->library[times->fastest]);
}

static int compare(const void *a, const void *b)
{
    double x = *(const double *)a, y = *(const double *)b;

    return (x > y) - (x < y);
}

double median(double *row, unsigned count)
{
    qsort(row, count, sizeof *row, compare);
    return count % 2 == 1 ? row[count / 2] : (row[count / 2 - 1] + row[count / 2]) / 2;
}
