// An outcome being laid, from the end of its room backwards and right operands first, so that a part which falls away is dropped by
// moving the front back and nothing is ever moved. Central and step share it.

#ifndef OUTCOME_H
#define OUTCOME_H

#include "operands.h"

enum { PAST = 8 }; // bytes behind the room that may be read with its last ones

struct outcome {
    uint8_t node[MOST + PAST];
    uint16_t left[MOST]; // of an and or or that is laid at each place: its left operand's nodes, 0 where they are not counted yet
};

static inline void begin_outcome(struct outcome *o)
{
    put64(o->node + MOST, 0);
}

// Lays a part as it stands, up to the end; the front. Of its own joints only the first needs a note: whoever counts the left
// operand of one sees to the next.
static inline size_t lay_part(struct outcome *o, size_t end, const uint8_t *part, size_t count)
{
    size_t front = end - count;
    copy_bytes(o->node + front, part, count);
    o->left[front] = 0;
    return front;
}

static inline size_t lay_node(struct outcome *o, size_t front, unsigned code)
{
    o->node[--front] = (uint8_t)code;
    return front;
}

static inline int is_same(const uint8_t *a, const uint8_t *b, size_t count)
{
    for (; count >= 8; a += 8, b += 8, count -= 8)
        if (word(a) != word(b))
            return 0;
    for (; count > 0; a++, b++, count--)
        if (*a != *b)
            return 0;
    return 1;
}

// The left operand's nodes of the joint at a place inside a part that was laid as it stood: no place holder is in there.
static inline size_t count_left(struct outcome *o, size_t at)
{
    const uint8_t *left = o->node + at + 1;
    size_t count = (size_t)(past_operands(left, o->node + MOST, 1, owes[MOST_PROPOSITIONS]) - left);
    o->left[at] = (uint16_t)count;
    o->left[at + 1 + count] = 0;
    return count;
}

// Whether the operand from l to r is a member of the one from r to the end. Its first eight bytes are compared as one number, those
// that are not its own shifted out.
static inline int is_member(struct outcome *o, unsigned joint, size_t l, size_t r, size_t end)
{
    const uint8_t *node = o->node;
    size_t count = r - l;
    unsigned others = count < 8 ? 64 - 8 * (unsigned)count : 0;
    uint64_t first = get64(node + l);
    while (end - r > count) {
        if (node[r] != joint)
            return 0;
        size_t left = o->left[r];
        if (left == 0)
            left = count_left(o, r);
        if (left == count && (get64(node + r + 1) ^ first) << others == 0 && (count <= 8 || is_same(node + l, node + r + 1, count)))
            return 1;
        r += 1 + left;
    }
    return end - r == count && is_same(node + l, node + r, count);
}

// Joins two operands that are pending, the left one from l to r and the right one from r to the end; the front.
static inline size_t join(struct outcome *o, unsigned joint, size_t l, size_t r, size_t end)
{
    if (is_member(o, joint, l, r, end))
        return r;
    size_t front = lay_node(o, l, joint);
    o->left[front] = (uint16_t)(r - l);
    return front;
}

#endif
