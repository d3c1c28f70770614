// The walk of central: it unfolds and resolves a formula at once.

#ifndef PROGRESS_H
#define PROGRESS_H

#include "outcome.h"

// What is known of the operand that begins at a place: where it ends, and whether progressing it decides it. Values are ordered, so
// that and takes the lower one and or the higher one.
enum { DECIDED_FALSE, UNDECIDED, DECIDED_TRUE };

struct known {
    uint16_t end, value;
};

// Lays the outcome, a constant too, at the end of its room; the front. The unfolded formula has at most MOST nodes.
size_t progress(const uint8_t *formula, const struct known *known, struct outcome *o);

#endif
