// The numbers of the slots that a layout has kept.

#ifndef NUMBERING_H
#define NUMBERING_H

#include "laying.h"
#include "layout.h"

// Makes a layout of the root, its nodes and what it holds, and the kept slots: by the longest chains of holders, then as they are first
// met.
void number_slots(const struct kept *k, unsigned board, const uint8_t *root, size_t count, uint64_t holds, struct layout *l);

#endif
