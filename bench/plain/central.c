// Central: constants are folded where there are any; one pass from the back measures the formula and its unfolding and finds what the
// event decides; one walk progresses the rest; the outcome is copied once.

#include "../plain.h"
#include "folding.h"
#include "progress.h"

static inline unsigned lower(unsigned a, unsigned b)
{
    return a < b ? a : b;
}

static inline unsigned higher(unsigned a, unsigned b)
{
    return a > b ? a : b;
}

// The unfolded size, or 0 where this is not one whole formula. Going backwards, the first operand is always the one just measured.
// Unfolding adds to a temporal operator its copy under next, but not below another next: there the count goes back to what it was
// behind that next's operand. A function of its own, which compilers make better code of.
static __attribute__((noinline)) size_t measure(const uint8_t *formula, size_t count, uint64_t event, struct known *known)
{
    uint32_t added[MOST + 1], more = 0;
    size_t end = count;
    unsigned value = 0;
    uint8_t last = formula[count - 1];
    if (last > TRUE && last / 64 != PROPOSITION / 64)
        return 0;
    added[count] = 0;
    for (size_t i = count; i-- > 0;) {
        unsigned code = formula[i];
        if (code >= PROPOSITION) {
            if (code >= PLACE_HOLDER)
                return 0;
            end = i + 1;
            value = (event >> code % 64 & 1) * DECIDED_TRUE;
        } else if (code == AND || code == OR || code == UNTIL) {
            if (end == count)
                return 0;
            struct known second = known[end];
            end = second.end;
            if (code == UNTIL) {
                more += 2 + (uint32_t)(end - i);
                value = higher(second.value, lower(value, UNDECIDED));
            } else {
                value = code == AND ? lower(value, second.value) : higher(value, second.value);
            }
        } else if (code >= EVENTUALLY) {
            if (code >= CODES)
                return 0;
            more += 1 + (uint32_t)(end - i);
            value = code == ALWAYS ? lower(value, UNDECIDED) : higher(value, UNDECIDED);
        } else if (code == NOT) {
            value = DECIDED_TRUE - value;
        } else if (code == NEXT) {
            more = added[end];
            value = UNDECIDED; // its operand is no constant
        } else {
            end = i + 1;
            value = code * DECIDED_TRUE;
        }
        known[i] = (struct known){(uint16_t)end, (uint16_t)value};
        added[i] = more;
    }
    return end == count ? count + more : 0;
}

uint32_t plain_central(const uint8_t *formula, size_t formula_len, uint64_t event, uint8_t *output, size_t output_len,
                       uint32_t *verdict, uint64_t *length)
{
    if (formula_len - 1 >= MOST || output_len != MOST)
        return LENGTH;
    uint8_t room[MOST];
    struct known known[MOST];
    struct outcome outcome;
    formula = folded(formula, &formula_len, room);
    if (formula == NULL)
        return FORMULA;
    size_t unfolded = measure(formula, formula_len, event, known);
    if (unfolded == 0)
        return FORMULA;
    if (unfolded > MOST)
        return NODES;
    size_t front = progress(formula, known, &outcome), count = MOST - front;
    copy_bytes(output, outcome.node + front, count);
    clear_bytes(output + count, MOST - count);
    *verdict = output[0] <= TRUE ? output[0] : PENDING;
    *length = count;
    return 0;
}
