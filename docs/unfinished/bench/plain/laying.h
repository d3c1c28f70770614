// A layout in the making: what layout.c lays, count.c counts and numbering.c numbers.

#ifndef LAYING_H
#define LAYING_H

#include "choices.h"

// A part of what is unfolded: the place of its node, and what unfolding made of that.
struct part {
    uint16_t at;
    uint16_t form;
};

enum { DONE = AGAIN + 1 }; // no part, but the end of the slot in hand

// The slots that are kept, each once and behind those that it holds: a place holder in one of them is of a place in this list. They are
// found by their keys: those with one hash are a list, places from 1 up, and 0 ends it.
enum { HASH_BITS = 7 };

struct kept {
    size_t count;
    uint64_t key[MOST_SLOTS];
    uint64_t holds[MOST_SLOTS]; // a bit for each place
    uint8_t board[MOST_SLOTS];
    uint8_t first[1 << HASH_BITS], next[MOST_SLOTS];
    uint16_t start[MOST_SLOTS + 1];
    uint8_t node[MOST];
};

// A slot that waits for what it holds: what it holds so far, where its nodes in hand begin, its board, and the number of the held slot
// that it waits for.
struct open {
    uint64_t holds;
    uint16_t start;
    uint8_t board, held;
};

// At most 63 slots of the old network only pass on, and of all others that wait none are equal: with more there are too many.
enum { MOST_OPEN = 2 * MOST_SLOTS, MOST_WAITING = MOST + MOST_OPEN };
enum { CUT = 255 };     // it waits for a part of its own
enum { UNKNOWN = 255 }; // the place of a slot of the old network that is not laid yet

struct laying {
    struct source *source;
    struct kept *kept;
    uint8_t place[MOST_SLOTS]; // of the slots of the old network, among those kept
    size_t nodes;
    uint64_t holds;                    // what the root holds
    uint8_t node[MOST];                // of the slots in hand, one behind the other
    struct part waiting[MOST_WAITING]; // one at most for each node, and the ends of the slots
    struct open open[MOST_OPEN];
};

// Of a layout with too many nodes: 7 where it has too many slots as well, else 8.
uint32_t count_slots(struct source *s, unsigned board);

#endif
