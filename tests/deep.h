// Formulas that are nested as deep as their nodes allow, states that hold them, and a text with more brackets than nodes: what
// tests/stack.c measures stacks with.

#ifndef DEEP_H
#define DEEP_H

#include "../include/vydrulka.h"

#include <stddef.h>
#include <stdint.h>

struct formula {
    size_t nodes;
    uint8_t bytes[VYDRULKA_NODES_MOST];
};

// A layer is what one formula is put into: a not, an and with a leaf to the right of it, and so on.
extern const size_t layer_count;
const char *layer_name(size_t layer);

// What stands innermost. A state's slot may have a place holder there.
extern const size_t core_count;
const char *core_name(size_t core);

// Layers from the outside in, one behind the other; where they end they begin again.
struct pattern {
    size_t length, core;
    size_t layers[2];
};

// As many layers of the pattern as fit into `most` nodes, which are 2 or more. Nots fill up what is left, where `filled`.
void nest(struct formula *formula, const struct pattern *pattern, size_t most, int filled);

// Numbers that follow from a seed.
struct chance {
    uint64_t state;
};
uint64_t below(struct chance *chance, uint64_t limit);

// Layers by chance, and a tree by chance, both of at most `most` nodes over propositions 0 and 1, with constants.
void any_nest(struct formula *formula, struct chance *chance, size_t most);
void any_tree(struct formula *formula, struct chance *chance, size_t most);

// The rule file of this formula, of at most 1,024 nodes, where board 0 sees proposition 0 and board 1 proposition 1.
extern const uint64_t masks[2];
size_t file_of(uint8_t *file, const struct formula *formula);

// A state of those two boards, which have sampled 0. The formula is slot 0, stepped or not. Where slots are more than one, the
// formula stands in each of them as far as it fits, with the place holder of the next slot for its first leaf: then it is nested
// through all slots.
void state_of(uint8_t *state, const struct formula *formula, int stepped, size_t slots);

// The text of as many nots as a rule has room for, and a million brackets around its proposition.
enum { NOTS = VYDRULKA_RULE_NODES_MOST - 1, BRACKETS = 1000000, BRACKETED_LENGTH = NOTS + BRACKETS + 2 + BRACKETS };
void put_bracketed(uint8_t text[BRACKETED_LENGTH]);

#endif
