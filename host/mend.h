// Mending, compared with what is due; what is handed back is judged, and mended again.
#ifndef MEND_H
#define MEND_H

#include "trial.h"

// With rows that are long enough and too short. What is handed back, where pairs are dropped, becomes the sheet on trial.
void try_mending(struct trial *trial);

#endif
