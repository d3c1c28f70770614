// The state check: one pass forward over the records and the nodes. Slots are taken from the last to the first, since a place
// holder stands for a later slot, whose mark is then known.

#include "check.h"
#include "operands.h"

// What each byte outside next adds to the operands owed; AWAY for those that need a look of their own.
enum { AWAY = 2 };

static const int8_t owes_outside[256] = {
    [FALSE] = -1, [TRUE] = -1, [NOT] = 0, [AND] = 1, [OR] = 1, [NEXT ... PROPOSITION - 1] = AWAY,
    [PROPOSITION ... PLACE_HOLDER - 1] = -1, [PLACE_HOLDER ... 255] = AWAY,
};

// Whether the bytes from p to the end are one whole formula that may stand in a slot, with propositions of the mask outside next;
// temporal operators may stand there where the slot is stepped. `unmet` are the slots whose place holders may still stand; those
// met are taken out. `of` is what bytes below next owe. Propositions of another mask are gathered rather than branched on.
static inline __attribute__((always_inline)) int is_slot_formula(const uint8_t *p, const uint8_t *end, uint64_t mask, int stepped,
                                                                 const int16_t *of, uint64_t *unmet, struct network *noting)
{
    const uint8_t *start = p;
    uint64_t lacking = 0;
    int owed = 1;
    do {
        if (p == end)
            return 0;
        unsigned code = *p++;
        int more = owes_outside[code];
        if (more != AWAY) {
            lacking |= ~((code < PROPOSITION ? UINT64_MAX : mask) >> code % 64);
            owed += more;
            continue;
        }
        owed--;
        if (code == NEXT || (stepped && code < CODES)) {
            const uint8_t *operand = p;
            p = past_operands(p, end, code == UNTIL ? 2 : 1, of);
            if (p == NULL)
                return 0;
            if (noting != NULL)
                noting->next[noting->nexts++] = (struct next){(uint16_t)(operand - start - 1), (uint16_t)(p - start)};
        } else if (code / 64 == PLACE_HOLDER / 64 && *unmet >> code % 64 & 1) {
            *unmet ^= UINT64_C(1) << code % 64;
        } else {
            return 0;
        }
    } while (owed != 0);
    return p == end && !(lacking & 1);
}

// The same of a single byte, where it makes no difference whether the slot is stepped.
static inline int is_slot_leaf(unsigned code, uint64_t mask, uint64_t *unmet)
{
    if (code / 64 == PROPOSITION / 64)
        return mask >> code % 64 & 1;
    if (code / 64 != PLACE_HOLDER / 64)
        return code <= TRUE;
    uint64_t bit = UINT64_C(1) << code % 64, held = *unmet & bit;
    *unmet ^= held;
    return held != 0;
}

// The masks' union, or 0 where they overlap, their union is not the lowest bits, or a sample breaks its rule.
static inline uint64_t union_of_boards(const uint8_t *record, struct network *n)
{
    uint64_t all = 0, bad = 0, flags = 0;
    for (size_t i = 0; i < n->boards; i++, record += BOARD) {
        uint64_t mask = get64(record), sample = get64(record + 8), sampled = record[16];
        bad |= (all & mask) | (sample & ~mask) | sampled >> 1 | (sampled ? 0 : sample);
        all |= mask;
        n->masks[i] = mask;
        flags |= sampled << i;
    }
    n->sampled = flags;
    return bad | (all & (all + 1)) ? 0 : all;
}

static int header_breaks(const uint8_t *state)
{
    size_t boards = get16(state), slots = get16(state + 2), nodes = get16(state + 4);
    if (boards - 1 >= MOST_BOARDS || slots - 1 >= MOST_SLOTS || nodes - 1 >= MOST)
        return 1;
    return get16(state + 6) != HEADER || get16(state + 8) != slots_at(boards) || get16(state + 10) != nodes_at(boards, slots);
}

// The rest of the check; a function of its own, so that what fails before it costs little.
static __attribute__((noinline)) uint32_t network_behind(const uint8_t *state, struct network *n, uint64_t asked)
{
    size_t boards = get16(state), count = get16(state + 2), end = get16(state + 4);
    size_t slots = slots_at(boards), nodes = nodes_at(boards, count);
    n->boards = boards;
    n->slots = count;
    n->nodes = end;
    n->ticks = (uint32_t)get32(state + 12);
    n->slot = state + slots;
    n->node = state + nodes;
    n->nexts = 0;
    uint64_t all = union_of_boards(state + HEADER, n);
    if (all == 0)
        return STATE;
    const int16_t *of = owes[64 - __builtin_clzll(all)];
    const uint8_t *node = state + nodes, *behind = node + end, *record = node;
    uint64_t stepped = 0, constant = 0, value = 0, held = 0, later = 0;
    for (size_t i = count; i-- > 0; record -= SLOT) {
        struct slot slot = slot_at(record - SLOT);
        if (slot.board >= boards || slot.start >= end || slot.length - (size_t)1 >= end - slot.start)
            return STATE;
        const uint8_t *first = node + slot.start, *last = first + slot.length;
        uint64_t bit = UINT64_C(1) << i, mask = n->masks[slot.board], may, unmet; // may: slots that this one may hold
        if (slot.mark == 0) {
            unmet = may = later & ~held;
            if (last != node + end)
                return STATE;
            if (slot.length > 1 && !is_slot_formula(first, last, mask, 0, of, &unmet, i == asked ? n : NULL))
                return STATE;
        } else {
            unmet = may = stepped & ~constant & ~held;
            if (slot.mark != 1 || !(n->sampled >> slot.board & 1) || !are_zero(last, (size_t)(node + end - last)))
                return STATE;
            if (slot.length > 1 && !is_slot_formula(first, last, all, 1, of, &unmet, NULL))
                return STATE;
            stepped |= bit;
        }
        if (slot.length == 1) {
            if (!is_slot_leaf(*first, mask, &unmet))
                return STATE;
            constant |= *first <= TRUE ? bit : 0;
            value |= *first == TRUE ? bit : 0;
        }
        if (i == asked)
            n->holds = may & ~unmet;
        held |= may & ~unmet;
        later |= bit;
        end = slot.start;
    }
    if (end != 0 || !are_zero(behind, STATE_BYTES - (size_t)(behind - state)))
        return STATE;
    n->stepped = stepped;
    n->constant = constant;
    n->value = value;
    return 0;
}

uint32_t network_of(const uint8_t *state, size_t state_len, struct network *n, uint64_t asked, struct next *room)
{
    if (state_len != STATE_BYTES || header_breaks(state))
        return STATE;
    n->next = room;
    return network_behind(state, n, asked);
}
