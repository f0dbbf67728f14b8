// The archive's time over that of an earlier one, both as shared libraries.
#ifndef EARLIER_H
#define EARLIER_H

// Loads the libraries that the variables BEFORE and AFTER name, where BEFORE names one. Returns whether that can be done; else standard error
// says why.
int earlier_load(void);

// Prints the table over the sheets of all kinds, where they are loaded. Returns how many sheets the two judge differently.
unsigned print_earlier(unsigned sheets, int *missed);

// Prints the bar, where they are loaded.
void print_earlier_bar(int missed);

#endif
