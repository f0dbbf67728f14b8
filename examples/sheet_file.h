/* What the examples share: a sheet read from a file, and the words of a fault. C (since C99) and C++ (since C++98) alike. */
#ifndef SHEET_FILE_H
#define SHEET_FILE_H

#include <errno.h>
#include <stdio.h>
#include <string.h>

#include "reedanchor.h"

static const char *fault_words(uint32_t fault)
{
    switch (fault) {
    case REEDANCHOR_NO_TABLE: return "fewer than 32 bytes";
    case REEDANCHOR_OVER_LIMIT: return "an item count above its limit";
    case REEDANCHOR_LATE_BODY: return "a body starts late, leaving a gap";
    case REEDANCHOR_EARLY_BODY: return "a body starts early, running into the one before";
    case REEDANCHOR_WRONG_END: return "the sheet doesn't end with its last body";
    case REEDANCHOR_OVER_OPENING: return "an opening count above 1,000,000";
    case REEDANCHOR_OVER_WEIGHT: return "a weight above 1,000";
    case REEDANCHOR_NO_TRANSITION: return "an event names no transition";
    case REEDANCHOR_NO_EVENT: return "a pair names no event";
    case REEDANCHOR_SELF_PAIR: return "a pair of an event with itself";
    case REEDANCHOR_REPEATED_PAIR: return "a pair given twice";
    case REEDANCHOR_CYCLE: return "the order has a cycle";
    case REEDANCHOR_NO_PLACE: return "the place number isn't in the net";
    case REEDANCHOR_SHORT_ROW: return "a lent row is too short";
    default: return "for a reason that this program doesn't know";
    }
}

/* Reads a sheet, or as much of it as is enough, from a file. Returns whether that went well, having said so if not. */
static int read_sheet(const char *program, const char *name, uint8_t *sheet, size_t *length)
{
    FILE *file = fopen(name, "rb");
    if (file == NULL) {
        fprintf(stderr, "%s: can't open %s: %s\n", program, name, strerror(errno));
        return 0;
    }
    errno = 0;
    *length = fread(sheet, 1, REEDANCHOR_ENOUGH_BYTES, file);
    int failed = ferror(file);
    if (failed)
        fprintf(stderr, "%s: can't read %s: %s\n", program, name, strerror(errno));
    fclose(file);
    return !failed;
}

/* The exit status once all is printed: 2 where that can't be written. */
static int finish(const char *program, int status)
{
    if (!ferror(stdout) && fflush(stdout) == 0)
        return status;
    fprintf(stderr, "%s: can't write: %s\n", program, strerror(errno));
    return 2;
}

#endif
