// The state's format, and the network that a state which passes the check holds.

#ifndef CHECK_H
#define CHECK_H

#include "parts.h"

enum { BOARD = 17, SLOT = 6 }; // bytes of a record
enum { STATE_BYTES = HEADER + BOARD * MOST_BOARDS + SLOT * MOST_SLOTS + MOST };

static inline size_t slots_at(size_t boards)
{
    return HEADER + BOARD * boards;
}

static inline size_t nodes_at(size_t boards, size_t slots)
{
    return slots_at(boards) + SLOT * slots;
}

struct slot {
    uint8_t board, mark;
    uint16_t start, length;
};

// Read at once, with two bytes behind the record: there are more in every state.
static inline struct slot slot_at(const uint8_t *record)
{
    uint64_t all = get64(record);
    return (struct slot){(uint8_t)all, (uint8_t)(all >> 8), (uint16_t)(all >> 16), (uint16_t)(all >> 32)};
}

// A next that stands outside next and temporal operators: where it begins in its slot, and where its operand ends.
struct next {
    uint16_t start, end;
};

enum { NO_SLOT = MOST_SLOTS, MOST_NEXTS = MOST / 2 };

struct network {
    size_t boards, slots, nodes;
    uint32_t ticks;
    uint64_t masks[MOST_BOARDS];
    const uint8_t *slot, *node; // inside the state: where the slots and the nodes begin
    // A bit for each board or slot:
    uint64_t sampled, stepped;
    uint64_t constant, value; // a slot is the single byte 0 or 1; it is 1
    // Of the slot that was asked for: a bit for each slot that it holds, and its nexts in order.
    uint64_t holds;
    size_t nexts;
    struct next *next;
};

// 0, or 9 where the state fails the check. What one slot holds and its nexts are told where its number is asked for and there is
// room for MOST_NEXTS.
uint32_t network_of(const uint8_t *state, size_t state_len, struct network *n, uint64_t asked, struct next *room);

// One slot, unstepped, holding 0 or 1.
static inline int is_finished(const struct network *n)
{
    return n->slots == 1 && n->stepped == 0 && n->constant == 1;
}

#endif
