// The calls about a whole sheet, each made once and compared with what is due: judge, fault, plan judgement and listing.
#ifndef WHOLE_H
#define WHOLE_H

#include "trial.h"

void try_judge(struct trial *trial);
void try_fault(struct trial *trial);

// With a row that is long enough, or too short.
void try_plan(struct trial *trial, int enough);
void try_listing(struct trial *trial, int enough);

#endif
