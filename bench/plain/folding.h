// Constants folded, before a rule is laid out or a formula is progressed.

#ifndef FOLDING_H
#define FOLDING_H

#include "parts.h"

// The formula folded, with its nodes as the count: the formula itself where it has no constant to fold, else at the end of the room.
// NULL where there is one to fold and this is not one whole formula; whoever gets the formula itself still has to look.
const uint8_t *folded(const uint8_t *formula, size_t *count, uint8_t room[MOST]);

#endif
