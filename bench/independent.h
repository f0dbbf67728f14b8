// An implementation of the judgements that shares no code and no method with the archive.
#ifndef INDEPENDENT_H
#define INDEPENDENT_H

#include "plan.h"

#ifdef __cplusplus
extern "C" {
#endif

// The least opening count with which the plan runs at a place. Where `done` isn't null it gets a byte for each event:
// 1 for the members of the smallest done set with the greatest lack, else 0.
uint32_t independent_least(const struct plan *plan, unsigned place, uint8_t *done);

// Plan judgement: the fault, or 0 with the missing count of each place.
uint32_t independent_judge(const uint8_t *sheet, size_t length, uint32_t *missing);

// The till server's call: 0 for a plan that runs, the fault, or 1,000 plus the first short place.
uint32_t independent_till(const uint8_t *sheet, size_t length);

#ifdef __cplusplus
}
#endif

#endif
