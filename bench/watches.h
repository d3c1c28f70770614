// Inputs of load, sample, step, close, ask, whole ticks and captures.

#ifndef WATCHES_H
#define WATCHES_H

#include "cases.h"

// Rules: each fills in the masks, the number of propositions, the formula and the events of some ticks.
void until_over_two(struct input *input);
void responses_over_four(struct input *input);
void responses_over_sixteen(struct input *input);
void thousand_nodes(struct input *input);
void ors_over_two(struct input *input);
void response_over_two(struct input *input);

// Turns a rule into its call's input: a file, or the state that it has at load or that half of the ticks have led to, made ready
// for the call.
void finish_watch(struct input *input);

// Turns masks and a formula into a state of one slot on board 0, all boards sampled but for sample's, stepped for close.
void finish_handed(struct input *input);

#endif
