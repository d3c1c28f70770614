// Formulas for inputs: each function adds one to the input's bytes.

#ifndef FORMULAS_H
#define FORMULAS_H

#include "cases.h"

enum { FALSE, TRUE, NOT, AND, OR, NEXT, UNTIL, EVENTUALLY, ALWAYS, PROPOSITION = 64, PLACE_HOLDER = 128 };

void put(struct input *input, uint8_t byte);
void put_all(struct input *input, const uint8_t *bytes, size_t count);

// A number below the limit, the next of those that the last seed gives.
void seed_random(uint64_t seed);
size_t below(size_t limit);

// A random formula of so many nodes over so many propositions from the first on, one operator in eight temporal.
void random_formula(struct input *input, size_t nodes, size_t first, size_t propositions);

#endif
