// One pass from the root down finds the longest chains; one walk over the place holders meets the slots; then each slot is copied to its
// place, and its place holders get their numbers.

#include "numbering.h"

// The next place holder from p on, or the end: the only bytes with their highest bit. None stands below next.
static inline const uint8_t *next_holder(const uint8_t *p, const uint8_t *end)
{
    for (; end - p >= 8; p += 8) {
        uint64_t found = get64(p) & UINT64_C(0x8080808080808080);
        if (found != 0)
            return p + __builtin_ctzll(found) / 8;
    }
    while (p < end && *p < PLACE_HOLDER)
        p++;
    return p;
}

// A slot whose place holders are gone through.
struct walk {
    const uint8_t *at, *end;
};

// Below a slot the walk goes when it is first met. It ends when all are met.
static void meet(const struct kept *k, const uint8_t *root, size_t count, uint8_t *order)
{
    struct walk stack[MOST_SLOTS], *top = stack, now = {root, root + count};
    uint64_t unmet = UINT64_MAX >> (64 - k->count);
    for (;;) {
        now.at = next_holder(now.at, now.end);
        if (now.at == now.end) {
            now = *--top;
            continue;
        }
        size_t place = *now.at++ % 64u;
        if (!(unmet >> place & 1))
            continue;
        unmet ^= UINT64_C(1) << place;
        *order++ = (uint8_t)place;
        if (unmet == 0)
            return;
        if (k->holds[place] != 0) {
            *top++ = now;
            now = (struct walk){k->node + k->start[place], k->node + k->start[place + 1]};
        }
    }
}

// The lengths of the longest chains, and the longest of all: 1 where nobody but the root holds a slot. A holder stands behind all that
// it holds.
static unsigned find_chains(const struct kept *k, uint8_t *longest)
{
    unsigned most = 1;
    for (size_t i = 0; i < k->count; i++)
        longest[i] = 1;
    for (size_t i = k->count; i-- > 0;) {
        unsigned length = longest[i] + 1u;
        for (uint64_t held = k->holds[i]; held != 0; held &= held - 1) {
            uint8_t *other = &longest[__builtin_ctzll(held)];
            if (*other < length)
                *other = (uint8_t)length;
            most = most < length ? length : most;
        }
    }
    return most;
}

// Puts the slots that were met in order of their chains.
static void sort_by_chains(size_t count, const uint8_t *longest, unsigned most, const uint8_t *order, uint8_t *by_number)
{
    uint8_t before[MOST_SLOTS + 1];
    for (unsigned i = 0; i <= most; i++)
        before[i] = 0;
    for (size_t i = 0; i < count; i++)
        before[longest[i]]++;
    for (unsigned i = 1, sum = 0; i <= most; i++) {
        unsigned these = before[i];
        before[i] = (uint8_t)sum;
        sum += these;
    }
    for (size_t i = 0; i < count; i++)
        by_number[before[longest[order[i]]]++] = order[i];
}

static void put_slot(struct layout *l, unsigned board, const uint8_t *node, size_t count, uint64_t holds, const uint8_t *number_of)
{
    uint8_t *first = l->node + l->nodes;
    copy_bytes(first, node, count);
    l->slot[l->slots++] = (struct slot){(uint8_t)board, 0, (uint16_t)l->nodes, (uint16_t)count};
    l->nodes += count;
    if (holds == 0)
        return;
    const uint8_t *end = node + count;
    for (const uint8_t *p = next_holder(node, end); p != end; p = next_holder(p + 1, end))
        first[p - node] = (uint8_t)(PLACE_HOLDER + number_of[*p % 64]);
}

void number_slots(const struct kept *k, unsigned board, const uint8_t *root, size_t count, uint64_t holds, struct layout *l)
{
    uint8_t longest[MOST_SLOTS], order[MOST_SLOTS], sorted[MOST_SLOTS], number_of[MOST_SLOTS], *by_number = order;
    l->slots = l->nodes = 0;
    if (k->count > 0) {
        unsigned most = find_chains(k, longest);
        meet(k, root, count, order);
        if (most > 1) {
            sort_by_chains(k->count, longest, most, order, sorted);
            by_number = sorted;
        }
        for (size_t i = 0; i < k->count; i++)
            number_of[by_number[i]] = (uint8_t)(i + 1);
    }
    put_slot(l, board, root, count, holds, number_of);
    for (size_t i = 0; i < k->count; i++) {
        size_t place = by_number[i], start = k->start[place];
        put_slot(l, k->board[place], k->node + start, k->start[place + 1] - start, k->holds[place], number_of);
    }
}
