// What a step does to a slot's formula.

#ifndef SETTLE_H
#define SETTLE_H

#include "check.h"
#include "outcome.h"

// Lays the outcome, a constant too, at the end of its room; the front. The network was asked for this slot.
size_t settle(const struct network *n, struct slot slot, uint64_t sample, struct outcome *o);

#endif
