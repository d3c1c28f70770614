// Inputs of central and load with constants to fold.

#ifndef CONSTANTS_H
#define CONSTANTS_H

#include "cases.h"

// Puts a constant that says nothing beside each proposition of a formula: folding takes them out again.
void put_beside_leaves(struct input *input);

void always_true(struct input *input);
void responses_with_constants(struct input *input);
void thousand_nodes_with_constants(struct input *input);

// The slowest known.
void constants_in_no_order(struct input *input);
void short_members_and_true(struct input *input);
void untils_and_true(struct input *input);
void next_tower_and_true(struct input *input);

#endif
