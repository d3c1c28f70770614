// The boards that the parts of an unfolded formula choose.

#ifndef CHOICES_H
#define CHOICES_H

#include "check.h"

// What unfolding makes of a node: the whole; of until(f, g), the and(unfold f, next until(f, g)); of a temporal operator, the next.
enum form { WHOLE, BOTH, AGAIN };

enum { STAYS = MOST_BOARDS }; // the choice of a part whose scores are all 0

struct source {
    const uint8_t *node;     // of a rule or of the network that is closed
    const uint8_t *held;     // the records of that network's slots
    uint8_t board_of[MOST_PROPOSITIONS];
    uint16_t size[MOST];    // of the operand that begins at each place, in nodes
    uint32_t choices[MOST]; // of its forms, a byte each
};

static inline unsigned choice_of(const struct source *s, size_t at, unsigned form)
{
    return s->choices[at] >> 8 * form & 255;
}

void find_boards(struct source *s, const uint64_t *masks, size_t boards);

// Finds the sizes and choices for the whole formula that stands at a place.
void choose_boards(struct source *s, size_t start, size_t count);

#endif
