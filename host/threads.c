// Calls of all kinds by several threads at once on the same sheets, each with rows of its own: all get what one thread alone gets.
#define _GNU_SOURCE
#include <pthread.h>
#include <stdio.h>
#include <stdlib.h>
#include <string.h>

#include "make.h"
#include "reedanchor.h"

enum { THREADS = 4, SHEETS = 16, PLACES = 4, CALLS = 7 };

// All that the calls say of a sheet and one of its places. What they leave alone is 0.
struct answers {
    uint32_t judge, fault, plan, place, check_flow, listing, mend;
    uint32_t item[5], total, short_places, first, valid;
    int32_t spare;
    size_t written[2];
    uint32_t missing[REEDANCHOR_ROW_LENGTH], flow[REEDANCHOR_FLOW_LENGTH];
    uint8_t marks[REEDANCHOR_MARKS_LENGTH], text[REEDANCHOR_TEXT_LENGTH], clean[REEDANCHOR_CLEAN_LENGTH], reasons[REEDANCHOR_REASONS_LENGTH];
};

static struct bytes sheets[SHEETS];
static struct answers alone[SHEETS][PLACES];
static pthread_barrier_t start;

static void ask(const struct bytes *sheet, size_t place, struct answers *a)
{
    memset(a, 0, sizeof *a);
    a->judge = reedanchor_judge(sheet->at, sheet->length);
    a->fault = reedanchor_fault(sheet->at, sheet->length, &a->item[0]);
    a->plan = reedanchor_plan(sheet->at, sheet->length, a->missing, REEDANCHOR_ROW_LENGTH, &a->item[1], &a->total, &a->short_places, &a->first);
    a->place = reedanchor_place(sheet->at, sheet->length, place, a->flow, REEDANCHOR_FLOW_LENGTH, a->marks, REEDANCHOR_MARKS_LENGTH, &a->item[2],
                                &a->spare);
    a->check_flow = reedanchor_check_flow(sheet->at, sheet->length, place, a->flow, REEDANCHOR_FLOW_LENGTH, &a->item[3], &a->valid);
    a->listing = reedanchor_listing(sheet->at, sheet->length, a->text, REEDANCHOR_TEXT_LENGTH, &a->written[0]);
    a->mend = reedanchor_mend(sheet->at, sheet->length, a->clean, REEDANCHOR_CLEAN_LENGTH, a->reasons, REEDANCHOR_REASONS_LENGTH, &a->item[4],
                              &a->written[1]);
}

// Asks all there is to ask, starting at another place in each thread. Returns null if all answers are those of one thread alone.
static void *ask_all(void *number)
{
    static int differs;
    struct answers answers;

    pthread_barrier_wait(&start);
    for (unsigned sheet = 0; sheet < SHEETS; sheet++)
        for (unsigned i = 0; i < PLACES; i++) {
            size_t place = (i + *(unsigned *)number) % PLACES;
            ask(&sheets[sheet], place, &answers);
            if (memcmp(&answers, &alone[sheet][place], sizeof answers) != 0)
                return &differs;
        }
    return NULL;
}

static void make_sheets(void)
{
    struct random r = {11};

    for (unsigned i = 0; i < SHEETS; i++) {
        if (i % 4 == 0)
            make_long(&sheets[i], &r, i, 1);
        else
            make_short(&sheets[i], &r);
        if (i % 4 == 1)
            make_damage(&sheets[i], &r);
        if (i % 4 == 2)
            make_export(&sheets[i], &r);
        for (size_t place = 0; place < PLACES; place++)
            ask(&sheets[i], place, &alone[i][place]);
    }
}

int main(void)
{
    pthread_t threads[THREADS];
    unsigned numbers[THREADS];
    int alike = 1;

    make_sheets();
    if (pthread_barrier_init(&start, NULL, THREADS) != 0)
        return 2;
    for (unsigned i = 0; i < THREADS; i++) {
        numbers[i] = i;
        if (pthread_create(&threads[i], NULL, ask_all, &numbers[i]) != 0) {
            perror("threads");
            exit(2);
        }
    }
    for (unsigned i = 0; i < THREADS; i++) {
        void *differs;
        if (pthread_join(threads[i], &differs) != 0 || differs != NULL)
            alike = 0;
    }
    if (!alike) {
        fprintf(stderr, "threads: a call says something else beside calls in other threads\n");
        return 1;
    }
    printf("%d calls in %d threads at once say what one thread's say\n", THREADS * SHEETS * PLACES * CALLS, THREADS);
    return 0;
}
