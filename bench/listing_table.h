// The time of a listing over that of a plan judgement, for each kind of sheet.
#ifndef LISTING_TABLE_H
#define LISTING_TABLE_H

#include "orders.h"

// Prints the table, where the programs are present, and marks each group with a sheet that misses the bar.
void print_listing(unsigned sheets, int missed[GROUPS]);

// Prints the bar. Returns whether it is missed on sheets at the limits, which is what it is set for.
int print_listing_bar(const int missed[GROUPS]);

#endif
