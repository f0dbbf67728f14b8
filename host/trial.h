// One sheet on trial: its bytes, what is due of it, and how calls on it are made and compared.
#ifndef TRIAL_H
#define TRIAL_H

#include "due_mend.h"
#include "make.h"
#include "row.h"
#include "tally.h"

struct trial {
    const struct bytes *sheet;
    struct due due;
    struct due_mend mend;
    struct random *r;
    struct tally *tally;

    // the call that is being made, for a message if it fails
    enum call call;
    enum side side;
    size_t lent, place, lengths[2]; // bytes of the sheet; entries of the rows

    struct guarded memory;
    struct row missing, flow, marks, text, clean, reasons; // rows that calls write
    struct row given;                                      // a flow that can only be read
};

// A number behind a pointer of its own, full of junk before the call, and with junk on both sides.
struct number {
    uint32_t before, value, after;
};

void trial_open(struct trial *trial, struct random *r, struct tally *tally);

// Takes on a sheet, and works out what is due. Stops the program where the independent judge and a walk over all done sets differ.
void trial_start(struct trial *trial, const struct bytes *sheet);

// Starts a call: the bytes of the sheet to lend, right before or right after a forbidden page; `trial->lent` of them. Where there are none,
// they are at a null pointer half of the time.
const uint8_t *trial_lend(struct trial *trial, enum call call);

// How many entries of a row are needed where that is known; else any few, since such a sheet is refused however long the row is.
size_t trial_needs(const struct trial *trial, int known, size_t entries);

// Lends the call's first or second row, of which so many entries are needed: long enough or too short. Returns whether it is too short,
// which it can't be where none are needed.
int trial_lend_row(struct trial *trial, int which, struct row *row, size_t needed, int enough);

// Ends a call: compares and counts its fault.
void trial_end(struct trial *trial, uint32_t found, uint32_t due);

// Stops the program, and prints the sheet, unless what was found is what is due.
void expect(const struct trial *trial, const char *what, int64_t found, int64_t due);

struct number number_of_junk(struct random *r);

// Expects a number, and nothing written beside it.
void expect_number(const struct trial *trial, const char *what, const struct number *number, uint32_t due);

// Expects a row to be as it was before the call from this entry on.
void expect_kept(const struct trial *trial, const struct row *row, size_t from);

#endif
