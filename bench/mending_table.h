// The time of mending a sheet at the limits over that of judging faults.
#ifndef MENDING_TABLE_H
#define MENDING_TABLE_H

struct mending_bar {
    unsigned sheets, missed; // all sheets, and those that miss the bar
    double worst;            // the worst ratio to the fault call on the sheet given
};

// Prints the table, where the archive is present, over the sheets of all kinds at the limits.
struct mending_bar print_mending(unsigned sheets);

// Prints the bar, and whether it is missed.
void print_mending_bar(const struct mending_bar *bar);

#endif
