// The state of a network that was just laid: nothing of its tick has come.

#ifndef STATE_H
#define STATE_H

#include "layout.h"

// Writes all of the state's bytes.
void write_state(uint8_t *state, const uint64_t *masks, size_t boards, uint32_t ticks, const struct layout *l);

#endif
