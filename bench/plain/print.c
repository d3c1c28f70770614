// Print: one pass over the formula. What is to be written when an operand is done, an infix sign or a bracket, waits in a stack.

#include "../plain.h"
#include "operands.h"

enum { TEXT_BYTES = 8192 };

// How close an operator binds, from the loosest up; a leaf binds like a prefix operator.
enum { BINDS_OR, BINDS_AND, BINDS_UNTIL, BINDS_PREFIX };

static const struct {
    uint8_t sign, binds;
} operators[CODES] = {[NOT] = {'!', BINDS_PREFIX},  [AND] = {'&', BINDS_AND},          [OR] = {'|', BINDS_OR},
                      [NEXT] = {'X', BINDS_PREFIX}, [UNTIL] = {'U', BINDS_UNTIL},      [EVENTUALLY] = {'F', BINDS_PREFIX},
                      [ALWAYS] = {'G', BINDS_PREFIX}};

static inline uint8_t *put_word(uint8_t *p, unsigned code)
{
    if (code == FALSE) {
        put32(p, 'f' | 'a' << 8 | 'l' << 16 | (uint32_t)'s' << 24);
        p[4] = 'e';
        return p + 5;
    }
    if (code == TRUE) {
        put32(p, 't' | 'r' << 8 | 'u' << 16 | (uint32_t)'e' << 24);
        return p + 4;
    }
    unsigned number = code - PROPOSITION;
    *p++ = 'p';
    if (number >= 10)
        *p++ = (uint8_t)('0' + number / 10);
    *p++ = (uint8_t)('0' + number % 10);
    return p;
}

uint32_t plain_print(const uint8_t *formula, size_t formula_len, uint8_t *text, size_t text_len, uint64_t *length)
{
    if (text_len != TEXT_BYTES)
        return LENGTH;
    if (formula_len - 1 >= MOST_RULE)
        return RANGE;
    if (past_operands(formula, formula + formula_len, 1, owes[MOST_PROPOSITIONS]) != formula + formula_len)
        return FORMULA;
    uint8_t waiting[2 * MOST_RULE]; // the codes of infix operators, and FALSE for a bracket
    size_t count = 0;
    unsigned least = BINDS_OR; // what the next operand must bind like, if it is to stand without brackets
    uint8_t *p = text;
    for (size_t i = 0; i < formula_len; i++) {
        unsigned code = formula[i];
        if (code == AND || code == OR || code == UNTIL) {
            unsigned binds = operators[code].binds;
            if (binds < least) {
                *p++ = '(';
                waiting[count++] = FALSE;
            }
            waiting[count++] = (uint8_t)code;
            least = binds + 1;
        } else if (code - NOT <= ALWAYS - NOT) {
            *p++ = operators[code].sign;
            least = BINDS_PREFIX;
        } else {
            p = put_word(p, code);
            while (count > 0 && waiting[count - 1] == FALSE) {
                *p++ = ')';
                count--;
            }
            if (count > 0) {
                code = waiting[--count];
                *p++ = operators[code].sign;
                least = operators[code].binds;
            }
        }
    }
    *length = (uint64_t)(p - text);
    clear_bytes(p, TEXT_BYTES - *length);
    return 0;
}
