// The calls about one place, compared with what is due: the place judgement, and the flow check on flows of many kinds.
#ifndef AT_PLACE_H
#define AT_PLACE_H

#include "trial.h"

// Any place number will do, and any sheet. Each row is long enough, or too short.
void try_place(struct trial *trial, size_t place, int flow_enough, int marks_enough);

// With a flow of junk.
void try_check_flow(struct trial *trial, size_t place, int enough);

// The place judgement with rows that are long enough, at a place of a faultless sheet; then the flow check on the flow handed over, on the
// same damaged by one and in other ways, and on flows that have nothing to do with it.
void try_flows(struct trial *trial, size_t place);

#endif
