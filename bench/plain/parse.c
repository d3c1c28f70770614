// Parse: one pass over the text, which finds where it goes wrong and notes the nodes in the text's order with the brackets around
// them; then one over these nodes from the back, where operands come before their operator, which lays the formula from its end.

#include "../plain.h"
#include "parts.h"

// What the text has, as far as a rule has room for it.
struct noted {
    size_t count; // of all nodes
    uint8_t code[MOST_RULE];
    size_t opened[MOST_RULE], closed[MOST_RULE]; // brackets right before a node, and right behind it
};

static inline void note(struct noted *n, unsigned code, size_t opened)
{
    if (n->count < MOST_RULE) {
        n->code[n->count] = (uint8_t)code;
        n->opened[n->count] = opened;
        n->closed[n->count] = 0;
    }
    n->count++;
}

static inline int is_space(unsigned byte)
{
    return byte == ' ' || byte - '\t' <= '\n' - '\t' || byte == '\r';
}

static inline int is_digit(unsigned byte)
{
    return byte - '0' <= 9;
}

// Past the word that begins at p; where there is none NULL, and p at the place where it goes wrong.
static inline const uint8_t *past_word(const uint8_t **p, const uint8_t *end, unsigned *code)
{
    const uint8_t *at = *p;
    if (*at == 'p') {
        *p = ++at;
        if (at == end || !is_digit(*at))
            return NULL;
        unsigned number = *at++ - '0';
        if (at < end && is_digit(*at) && number - 1 < 6 && 10 * number + (*at - '0') < MOST_PROPOSITIONS)
            number = 10 * number + (*at++ - '0');
        *code = PROPOSITION + number;
        return at;
    }
    const char *word = *at == 't' ? "true" : "false";
    *code = *at == 't' ? TRUE : FALSE;
    for (; *word != 0; word++, at++)
        if (at == end || *at != (uint8_t)*word) {
            *p = at;
            return NULL;
        }
    return at;
}

static const uint8_t infix[256] = {['|'] = OR, ['&'] = AND, ['U'] = UNTIL};
static const uint8_t prefix[256] = {['!'] = NOT, ['X'] = NEXT, ['F'] = EVENTUALLY, ['G'] = ALWAYS};

// The place where the text goes wrong, NULL where it does not.
static const uint8_t *wrong_at(const uint8_t *p, const uint8_t *end, struct noted *n)
{
    size_t open = 0;
    n->count = 0;
    for (;;) {
        size_t opened = 0;
        unsigned code;
        for (;; p++) { // before an operand
            if (p == end)
                return p;
            if (*p == '(') {
                opened++;
            } else if (prefix[*p] != 0) {
                note(n, prefix[*p], opened);
                open += opened;
                opened = 0;
            } else if (!is_space(*p)) {
                break;
            }
        }
        const uint8_t *past = past_word(&p, end, &code);
        if (past == NULL)
            return p;
        p = past;
        note(n, code, opened);
        open += opened;
        size_t closed = 0;
        for (;; p++) { // behind an operand
            if (p == end)
                break;
            if (*p == ')') {
                if (closed == open)
                    return p;
                closed++;
            } else if (!is_space(*p)) {
                break;
            }
        }
        open -= closed;
        if (n->count <= MOST_RULE)
            n->closed[n->count - 1] = closed;
        if (p == end)
            return open == 0 ? NULL : p;
        if (infix[*p] == 0)
            return p;
        note(n, infix[*p++], 0);
    }
}

// How close an infix operator binds.
static inline unsigned binding(unsigned code)
{
    return code == UNTIL ? 3 : code == AND ? 2 : 1;
}

// Lays the formula before this end. An operator waits there for its left operand, and behind how many operators that wait each
// bracket stands is counted.
static void lay(const struct noted *n, uint8_t *front)
{
    uint8_t waiting[MOST_RULE];
    size_t brackets[MOST_RULE];
    size_t count = 0;
    brackets[0] = 0;
    for (size_t i = n->count; i-- > 0;) {
        unsigned code = n->code[i];
        brackets[count] += n->closed[i];
        if (code == OR || code == AND || code == UNTIL) {
            while (count > 0 && brackets[count] == 0 && binding(waiting[count]) >= binding(code))
                *--front = waiting[count--];
            waiting[++count] = (uint8_t)code;
            brackets[count] = 0;
            continue;
        }
        *--front = (uint8_t)code;
        for (size_t opened = n->opened[i]; opened > 0;) {
            if (brackets[count] == 0) {
                *--front = waiting[count--];
            } else {
                size_t both = opened < brackets[count] ? opened : brackets[count];
                opened -= both;
                brackets[count] -= both;
            }
        }
    }
    while (count > 0)
        *--front = waiting[count--];
}

static uint64_t line_of(const uint8_t *text, const uint8_t *place)
{
    uint64_t line = 1;
    for (; text < place; text++)
        line += *text == '\n';
    return line;
}

uint32_t plain_parse(const uint8_t *text, size_t text_len, uint8_t *formula, size_t formula_len, uint64_t *nodes, uint64_t *line,
                     uint64_t *byte)
{
    if (formula_len != MOST_RULE)
        return LENGTH;
    struct noted n;
    const uint8_t *place = wrong_at(text, text + text_len, &n);
    if (place != NULL) {
        *line = line_of(text, place);
        *byte = (uint64_t)(place - text);
        return TEXT;
    }
    if (n.count > MOST_RULE)
        return RANGE;
    lay(&n, formula + n.count);
    clear_bytes(formula + n.count, MOST_RULE - n.count);
    *nodes = n.count;
    return 0;
}
