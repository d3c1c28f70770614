// One pass from the back, where operands come before their operator. What is no constant is laid from the end of the room backwards,
// so that a part which falls away is dropped by moving the front back and nothing is ever moved. Of the operands done only the
// constants are noted, in a list from the last one down: most nodes have none among their operands, which is one test.

#include "folding.h"
#include "operands.h"

static const uint64_t ONES = UINT64_C(0x0101010101010101);

// The highest bit of each byte that has none of these bits, of eight bytes.
static inline uint64_t without(uint64_t bits, uint64_t bytes)
{
    return ~((bytes & bits * ONES) + 0x7f * ONES) & 0x80 * ONES;
}

// Whether of these eight bytes one is a constant, other than true directly behind until. Place holders may pass for constants or
// for until: no formula has them.
static inline int have_constants(const uint8_t *bytes)
{
    uint64_t eight = word(bytes), found = without(0x7e, eight);
    return found != 0 && (found & ~(without(0x7f, word(bytes - 1) ^ UNTIL * ONES) & eight << 7)) != 0;
}

// Whether there is anything to fold, or it is a constant. The last eight bytes may be looked at twice.
static int has_constants(const uint8_t *formula, size_t count)
{
    if (formula[0] <= TRUE)
        return 1;
    if (count <= 8) {
        for (size_t i = 1; i < count; i++)
            if (formula[i] == FALSE || (formula[i] == TRUE && formula[i - 1] != UNTIL))
                return 1;
        return 0;
    }
    for (size_t i = 1; i + 8 < count; i += 8)
        if (have_constants(formula + i))
            return 1;
    return have_constants(formula + count - 8);
}

// An operand that is a constant, and the place of the next one that is, below it; 0 where there is none.
struct constant {
    uint16_t value, below;
};

// Folds to the end of the room; the front, or MOST where this is not one whole formula.
static size_t fold(const uint8_t *formula, size_t count, uint8_t *room)
{
    // The operands done have places from 1 up, the left one of two above the right one.
    uint16_t end[MOST + 2]; // the front before anything of the operand was laid
    struct constant constants[MOST + 1];
    int top = 0, last = 0; // the places of the last operand and of the last constant
    size_t front = MOST;
    for (size_t i = count; i-- > 0;) {
        unsigned code = formula[i];
        int owed = owes[MOST_PROPOSITIONS][code];
        if (code <= TRUE) {
            end[++top] = (uint16_t)front;
            constants[top] = (struct constant){(uint16_t)code, (uint16_t)last};
            last = top;
        } else if (top - owed > last) { // no operand is a constant
            end[top + 1] = (uint16_t)front; // in case it is a leaf
            room[--front] = (uint8_t)code;
            top -= owed;
        } else if (top <= owed) {
            return MOST;
        } else if (owed == 0) {
            constants[top].value ^= code == NOT;
        } else {
            unsigned decides = code == OR, left = PENDING;
            if (last == top) {
                left = constants[top].value;
                last = constants[top].below;
            }
            top--;
            if (last == top) { // the right operand is a constant
                if (code == UNTIL || constants[top].value == decides)
                    front = end[top];
                else if (left == PENDING)
                    last = constants[top].below;
                else
                    constants[top].value = (uint16_t)left;
            } else if (code == UNTIL) {
                if (left == TRUE) {
                    room[--front] = TRUE;
                    room[--front] = UNTIL;
                }
            } else if (left == decides) {
                front = end[top];
                constants[top] = (struct constant){(uint16_t)left, (uint16_t)last};
                last = top;
            }
        }
    }
    if (top != 1)
        return MOST;
    if (last == top)
        room[--front] = (uint8_t)constants[top].value;
    return front;
}

const uint8_t *folded(const uint8_t *formula, size_t *count, uint8_t room[MOST])
{
    if (!has_constants(formula, *count))
        return formula;
    size_t front = fold(formula, *count, room);
    *count = MOST - front;
    return front == MOST ? NULL : room + front;
}
