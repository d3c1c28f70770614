// Laying out: a rule at load, a network at close, each slot unfolded and cut into parts on their chosen boards.

#ifndef LAYOUT_H
#define LAYOUT_H

#include "check.h"

struct layout {
    size_t slots, nodes;
    struct slot slot[MOST_SLOTS];
    uint8_t node[MOST];
};

// 0, or the refusal 7 or 8. Only the stretches of a layout that is not refused are whole.
uint32_t lay_rule(const uint8_t *formula, size_t count, const uint64_t *masks, size_t boards, struct layout *layout);
uint32_t lay_again(const struct network *network, struct layout *layout);

#endif
