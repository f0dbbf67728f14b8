// What is due of mending a sheet, by document 02's rules as they are written.
#ifndef DUE_MEND_H
#define DUE_MEND_H

#include "due.h"

struct due_mend {
    uint32_t fault, item; // but for rows that are too short

    // of no use where there is another fault than a cycle
    unsigned pairs;           // of the sheet given
    uint8_t again[MAX_PAIRS]; // whether the same pair stands before, kept or not
    uint8_t reasons[MAX_PAIRS];
    size_t length; // of the clean sheet
    uint8_t clean[MAX_SHEET];
};

// `due` is what is due of the same sheet.
void due_mend_of(struct due_mend *mend, const struct due *due, const uint8_t *sheet, size_t length);

// "Before" by all pairs of the sheet that name two different events, repeats too. It takes long where there are many events.
void due_mend_before(const uint8_t *sheet, size_t length, uint8_t before[MAX_EVENTS][MAX_EVENTS]);

#endif
