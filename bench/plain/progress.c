// One walk unfolds and resolves at once, right operands first, and keeps to what is undecided. All is linear except the member
// rule.

#include "progress.h"

// What waits for the part being done: a not for its operand, a joint for its right operand and then for its left one. The walk
// keeps these itself: calls thousands deep would cost more than the rest. Each is a node of the unfolding, so MOST have room.
enum { OPERAND, RIGHT, LEFT };

struct frame {
    uint8_t wait;
    uint8_t joint;
    uint16_t at;    // where the left operand begins in the formula, while the right one is done
    uint16_t right; // where the right operand is laid, while the left one is done
    uint16_t end;   // the front before anything of this part was laid
};

size_t progress(const uint8_t *formula, const struct known *known, struct outcome *o)
{
    struct frame stack[MOST], *top = stack;
    size_t i = 0, front = MOST;
    begin_outcome(o);
    if (known[0].value != UNDECIDED)
        return lay_node(o, front, known[0].value == DECIDED_TRUE);
    for (;;) {
        // Goes down to a part that waits for nothing, past operands that are decided and so fall away, and lays it.
        for (;;) {
            unsigned code = formula[i];
            size_t left = i + 1;
            if (code == NEXT) {
                front = lay_part(o, front, formula + left, known[left].end - left);
                break;
            }
            if (code == NOT) {
                *top++ = (struct frame){.wait = OPERAND};
                i = left;
                continue;
            }
            if (code == AND || code == OR) {
                size_t right = known[left].end;
                if (known[left].value != UNDECIDED) {
                    i = right;
                } else if (known[right].value != UNDECIDED) {
                    i = left;
                } else {
                    *top++ = (struct frame){RIGHT, (uint8_t)code, (uint16_t)left, 0, (uint16_t)front};
                    i = right;
                }
                continue;
            }
            if (code == UNTIL) { // or(right, and(left, next until))
                size_t right = known[left].end;
                if (known[left].value == DECIDED_FALSE) {
                    i = right;
                    continue;
                }
                if (known[right].value == UNDECIDED)
                    *top++ = (struct frame){RIGHT, OR, (uint16_t)right, 0, (uint16_t)front};
            }
            size_t end = front;
            front = lay_part(o, front, formula + i, known[i].end - i);
            if (known[left].value != UNDECIDED)
                break;
            *top++ = (struct frame){LEFT, code == EVENTUALLY ? OR : AND, 0, (uint16_t)front, (uint16_t)end};
            i = left;
        }
        for (;; top--) {
            if (top == stack)
                return front;
            struct frame *f = top - 1;
            if (f->wait == LEFT) {
                front = join(o, f->joint, front, f->right, f->end);
            } else if (f->wait == OPERAND) {
                front = lay_node(o, front, NOT);
            } else {
                f->wait = LEFT;
                f->right = (uint16_t)front;
                i = f->at;
                break;
            }
        }
    }
}
