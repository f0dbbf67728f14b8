// The listing that is due of a sheet, from what is due of its plan.
#include "due.h"

#include <stdarg.h>
#include <stdio.h>

struct text {
    char *at;
    size_t length;
};

static void __attribute__((format(printf, 2, 3))) add(struct text *text, const char *format, ...)
{
    va_list values;

    va_start(values, format);
    text->length += (size_t)vsnprintf(text->at + text->length, DUE_TEXT - text->length, format, values);
    va_end(values);
}

// Unordered pairs of two events neither of which is before the other.
static unsigned free_count(const struct plan *plan)
{
    unsigned found = 0;

    for (unsigned b = 0; b < plan->events; b++)
        for (unsigned a = 0; a < b; a++)
            found += !plan->before[a][b] && !plan->before[b][a];
    return found;
}

// The tokens after all events.
static long end_count(const struct plan *plan, unsigned place)
{
    long tokens = plan->opening[place];

    for (unsigned e = 0; e < plan->events; e++)
        tokens += (long)plan_gives(plan, e, place) - (long)plan_takes(plan, e, place);
    return tokens;
}

static void add_last_line(struct text *text, const struct due *due)
{
    int none = 1;

    if (due->short_places == 0) {
        add(text, "runs\n");
        return;
    }
    add(text, "first %u done", due->first);
    for (unsigned e = 0; e < due->plan.events; e++)
        if (due->done[due->first][e]) {
            add(text, " %u", e);
            none = 0;
        }
    add(text, "%s\n", none ? " none" : "");
}

size_t due_listing(const struct due *due, char at[DUE_TEXT])
{
    const struct plan *plan = &due->plan;
    struct text text = {at, 0};

    if (due->fault != 0) {
        add(&text, "refused %u\n", due->fault);
        return text.length;
    }
    add(&text, "plan events %u pairs %u free %u\n", plan->events, plan->pairs, free_count(plan));
    for (unsigned p = 0; p < plan->places; p++)
        add(&text, "place %u open %u end %ld spare %d\n", p, plan->opening[p], end_count(plan, p), due_spare(due, p));
    add(&text, "short %u total %u\n", due->short_places, due->total);
    add_last_line(&text, due);
    return text.length;
}
