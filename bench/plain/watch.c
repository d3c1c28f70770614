// The calls of a watch: load, sample, step, close, ask. Each looks at the whole state first, in one pass, and writes when nothing
// is left to be refused.

#include "../plain.h"
#include "folding.h"
#include "layout.h"
#include "rules.h"
#include "settle.h"
#include "state.h"

uint32_t plain_load(const uint8_t *file, size_t file_len, uint8_t *state, size_t state_len)
{
    struct rule rule;
    struct layout layout;
    uint8_t room[MOST];
    if (state_len != STATE_BYTES)
        return LENGTH;
    uint32_t refusal = rule_of(file, file_len, &rule);
    if (refusal == 0) {
        size_t nodes = rule.nodes;
        const uint8_t *formula = folded(rule.formula, &nodes, room);
        refusal = lay_rule(formula, nodes, rule.masks, rule.boards, &layout);
    }
    if (refusal == 0)
        write_state(state, rule.masks, rule.boards, 0, &layout);
    return refusal;
}

// 0 where the state passes the check and is not finished.
static uint32_t begun(const uint8_t *state, size_t state_len, struct network *n, uint64_t asked, struct next *room)
{
    if (network_of(state, state_len, n, asked, room) != 0)
        return STATE;
    return is_finished(n) ? FINISHED : 0;
}

uint32_t plain_sample(uint8_t *state, size_t state_len, uint64_t board, uint64_t bits)
{
    struct network n;
    uint32_t refusal = begun(state, state_len, &n, NO_SLOT, NULL);
    if (refusal != 0)
        return refusal;
    if (board >= n.boards)
        return NO_SUCH;
    if (bits & ~n.masks[board])
        return BITS;
    if (n.sampled >> board & 1)
        return ALREADY;
    uint8_t *record = state + HEADER + BOARD * board;
    put64(record + 8, bits);
    record[16] = 1;
    return 0;
}

uint32_t plain_step(uint8_t *state, size_t state_len, uint64_t slot)
{
    struct network n;
    struct next nexts[MOST_NEXTS];
    uint32_t refusal = begun(state, state_len, &n, slot, nexts);
    if (refusal != 0)
        return refusal;
    if (slot >= n.slots)
        return NO_SUCH;
    if (n.stepped >> slot & 1)
        return ALREADY;
    uint8_t *record = state + slots_at(n.boards) + SLOT * slot;
    struct slot old = slot_at(record);
    if (!(n.sampled >> old.board & 1) || n.holds & ~n.stepped)
        return NOT_READY;
    struct outcome outcome;
    size_t front = settle(&n, old, get64(state + HEADER + BOARD * old.board + 8), &outcome), count = MOST - front;
    uint8_t *formula = state + nodes_at(n.boards, n.slots) + old.start;
    copy_bytes(formula, outcome.node + front, count);
    clear_bytes(formula + count, old.length - count);
    record[1] = 1;
    put16(record + 4, count);
    return 0;
}

uint32_t plain_close(const uint8_t *state, size_t state_len, uint8_t *second, size_t second_len)
{
    struct network n;
    struct layout layout;
    if (second_len != STATE_BYTES)
        return LENGTH;
    uint32_t refusal = begun(state, state_len, &n, NO_SLOT, NULL);
    if (refusal != 0)
        return refusal;
    if (n.sampled != UINT64_MAX >> (64 - n.boards) || n.stepped != UINT64_MAX >> (64 - n.slots))
        return NOT_READY;
    if (n.ticks == UINT32_MAX)
        return TICKS;
    refusal = lay_again(&n, &layout);
    if (refusal == 0)
        write_state(second, n.masks, n.boards, n.ticks + 1, &layout);
    return refusal;
}

uint32_t plain_ask(const uint8_t *state, size_t state_len, uint32_t *verdict, uint32_t *ticks, uint64_t *slots, uint64_t *nodes)
{
    struct network n;
    if (network_of(state, state_len, &n, NO_SLOT, NULL) != 0)
        return STATE;
    *verdict = is_finished(&n) ? (uint32_t)n.value : PENDING;
    *ticks = n.ticks;
    *slots = n.slots;
    *nodes = n.nodes;
    return 0;
}
