// Read and write: each part of the rule file is checked in one pass, and copied in one.

#include "rules.h"
#include "../plain.h"
#include "operands.h"

enum { FILE_BYTES = HEADER + 8 * MOST_BOARDS + MOST_RULE };

static int out_of_range(uint64_t boards, uint64_t propositions, uint64_t nodes)
{
    return boards - 1 >= MOST_BOARDS || propositions - 1 >= MOST_PROPOSITIONS || nodes - 1 >= MOST_RULE;
}

// That the ones add up to the size of the union, the lowest bits, says that no two masks overlap.
static int masks_break(uint64_t all, uint64_t twice, uint64_t propositions)
{
    return twice != 0 || all != UINT64_MAX >> (64 - propositions);
}

// The line of the table knows the propositions.
static int formula_breaks(const uint8_t *formula, size_t count, uint64_t propositions)
{
    return past_operands(formula, formula + count, 1, owes[propositions]) != formula + count;
}

uint32_t rule_of(const uint8_t *file, size_t file_len, struct rule *rule)
{
    if (file_len < HEADER)
        return LENGTH;
    uint64_t total = get32(file + 12);
    if (total != file_len)
        return LENGTH;
    if (get16(file) != 1)
        return VERSION;
    uint64_t b = get16(file + 2), p = get16(file + 4), n = get16(file + 6);
    if (out_of_range(b, p, n))
        return RANGE;
    size_t formula_at = HEADER + 8 * b;
    if (get16(file + 8) != HEADER || get16(file + 10) != formula_at || total != formula_at + n)
        return OFFSET;
    uint64_t all = 0, twice = 0;
    for (size_t i = 0; i < b; i++) {
        rule->masks[i] = get64(file + HEADER + 8 * i);
        twice |= all & rule->masks[i];
        all |= rule->masks[i];
    }
    if (masks_break(all, twice, p))
        return MASKS;
    rule->boards = b;
    rule->propositions = p;
    rule->nodes = n;
    rule->formula = file + formula_at;
    return formula_breaks(rule->formula, n, p) ? FORMULA : 0;
}

uint32_t plain_read(const uint8_t *file, size_t file_len, uint64_t *masks, size_t masks_len, uint8_t *formula, size_t formula_len,
                    uint64_t *boards, uint64_t *propositions, uint64_t *nodes)
{
    if (masks_len != MOST_BOARDS || formula_len != MOST_RULE)
        return LENGTH;
    struct rule rule;
    uint32_t refusal = rule_of(file, file_len, &rule);
    if (refusal != 0)
        return refusal;
    copy_bytes((uint8_t *)masks, (const uint8_t *)rule.masks, 8 * rule.boards);
    clear_bytes((uint8_t *)(masks + rule.boards), 8 * (MOST_BOARDS - rule.boards));
    copy_bytes(formula, rule.formula, rule.nodes);
    clear_bytes(formula + rule.nodes, MOST_RULE - rule.nodes);
    *boards = rule.boards;
    *propositions = rule.propositions;
    *nodes = rule.nodes;
    return 0;
}

uint32_t plain_write(const uint64_t *masks, size_t masks_len, uint64_t propositions, const uint8_t *formula, size_t formula_len,
                     uint8_t *file, size_t file_len, uint64_t *length)
{
    if (file_len != FILE_BYTES)
        return LENGTH;
    if (out_of_range(masks_len, propositions, formula_len))
        return RANGE;
    uint64_t all = 0, twice = 0;
    for (size_t i = 0; i < masks_len; i++) {
        twice |= all & masks[i];
        all |= masks[i];
    }
    if (masks_break(all, twice, propositions))
        return MASKS;
    if (formula_breaks(formula, formula_len, propositions))
        return FORMULA;
    size_t formula_at = HEADER + 8 * masks_len, total = formula_at + formula_len;
    put16(file, 1);
    put16(file + 2, masks_len);
    put16(file + 4, propositions);
    put16(file + 6, formula_len);
    put16(file + 8, HEADER);
    put16(file + 10, formula_at);
    put32(file + 12, total);
    for (size_t i = 0; i < masks_len; i++)
        put64(file + HEADER + 8 * i, masks[i]);
    copy_bytes(file + formula_at, formula, formula_len);
    clear_bytes(file + total, FILE_BYTES - total);
    *length = total;
    return 0;
}
