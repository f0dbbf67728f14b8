// How the time of a sheet grows with events, pairs and places.
#ifndef GROWTH_H
#define GROWTH_H

// Prints three tables. Returns how many sheets were judged differently by different judges.
unsigned print_growth(unsigned sheets);

#endif
