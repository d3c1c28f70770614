// The slowest inputs known for the calls: as large as the call takes, each a masks' list and a formula.

#ifndef SLOW_H
#define SLOW_H

#include "cases.h"

void untils_leaning_left(struct input *input);
void temporal_tower(struct input *input);
void next_tower(struct input *input);
void random_nodes(struct input *input);
void many_members(struct input *input);
void short_members(struct input *input);
void long_member(struct input *input);
void zigzag(struct input *input);

#endif
