// A slot is unfolded, so one pass from its last byte does: operands come before their operator, and the check has noted where the
// nexts are, below which nothing is looked into.

#include "settle.h"

// An operand that is done: FALSE, TRUE or PENDING, and the front when it was laid.
struct operand {
    uint16_t front;
    uint16_t value;
};

size_t settle(const struct network *n, struct slot slot, uint64_t sample, struct outcome *o)
{
    const uint8_t *formula = n->node + slot.start;
    const struct next *next = n->next + n->nexts;
    size_t next_end = next > n->next ? next[-1].end : 0;
    // The last operand done is in hand, the others wait. At most every second node waits, below them what was there before.
    struct operand waiting[MOST / 2 + 1], *top = waiting;
    size_t front = MOST;
    unsigned value = PENDING;
    begin_outcome(o);
    for (size_t i = slot.length; i > 0;) {
        if (i == next_end) {
            *top++ = (struct operand){(uint16_t)front, (uint16_t)value};
            next--;
            const uint8_t *operand = formula + next->start + 1;
            value = *operand;
            if (value > TRUE) {
                front = lay_part(o, front, operand, i - next->start - 1u);
                value = PENDING;
            }
            i = next->start;
            next_end = next > n->next ? next[-1].end : 0;
            continue;
        }
        unsigned code = formula[--i];
        if (code == AND || code == OR) {
            struct operand right = *--top;
            unsigned decides = code == OR;
            if (value == decides || right.value == decides) {
                front = top[-1].front;
                value = decides;
            } else if (value != PENDING) {
                value = right.value;
            } else if (right.value == PENDING) {
                front = join(o, code, front, right.front, top[-1].front);
            }
        } else if (code == NOT) {
            if (value == PENDING)
                front = lay_node(o, front, NOT);
            else
                value = !value;
        } else {
            *top++ = (struct operand){(uint16_t)front, (uint16_t)value};
            value = code;
            if (code >= PLACE_HOLDER) {
                value = n->value >> code % 64 & 1;
                if (!(n->constant >> code % 64 & 1)) {
                    front = lay_node(o, front, code);
                    value = PENDING;
                }
            } else if (code >= PROPOSITION) {
                value = sample >> code % 64 & 1;
            }
        }
    }
    return value == PENDING ? front : lay_node(o, front, value);
}
