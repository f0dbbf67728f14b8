// How long working out "before" and judging the faults of a sheet take, in three ways and by the archive.
#ifndef ORDER_TABLE_H
#define ORDER_TABLE_H

// Prints the table over the sheets of all kinds. Returns how many sheets were judged differently in different ways.
unsigned print_order(unsigned sheets);

#endif
