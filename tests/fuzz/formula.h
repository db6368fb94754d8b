/* The listing and the enclosed vertices of an accepted scene, held against the formula. */
#ifndef FORMULA_H
#define FORMULA_H

#include "exact.h"
#include "fuzz.h"

/* All pairs and vertices of a small scene; of a larger one as many as take no longer, by chance. */
void check_formula(const Exact *e, const Answers *a, const uint16_t *list);

#endif
