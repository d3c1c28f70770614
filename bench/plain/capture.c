// A whole run of events. The state is checked once. From then on its slots lie in a layout: the steps of a tick make stepped slots of
// them, and the close another layout of those, so that a tick that is refused leaves the last layout as it was. The state is written
// when the run has stopped.

#include "../plain.h"
#include "settle.h"
#include "state.h"

// The slots of a tick that are stepped, as a close reads them: their records, with two bytes that are read behind the last one, and
// their formulas, each at the start of its stretch.
struct stepped {
    uint8_t slot[SLOT * MOST_SLOTS + 2], node[MOST];
};

// Notes the nexts of a formula that stand outside next. For a single step the check does that.
static inline void note_nexts(struct network *n, const uint8_t *formula, size_t count)
{
    const uint8_t *end = formula + count;
    n->nexts = 0;
    for (const uint8_t *p = formula; p < end;) {
        const uint8_t *start = p++;
        if (*start != NEXT)
            continue;
        p = past_operands(p, end, 1, owes[MOST_PROPOSITIONS]);
        n->next[n->nexts++] = (struct next){(uint16_t)(start - formula), (uint16_t)(p - formula)};
    }
}

// Steps all slots, the highest number first; 9 where one becomes a lone proposition of another board. Outside next a slot has
// propositions of its own board alone, so the event will do for the sample.
static uint32_t step_all(struct network *n, const struct layout *l, uint64_t event, struct stepped *stepped)
{
    struct outcome outcome;
    n->node = l->node;
    n->constant = n->value = 0;
    for (size_t i = l->slots; i-- > 0;) {
        struct slot slot = l->slot[i];
        note_nexts(n, l->node + slot.start, slot.length);
        size_t front = settle(n, slot, event, &outcome), count = MOST - front;
        unsigned code = outcome.node[front];
        uint8_t *record = stepped->slot + SLOT * i;
        copy_bytes(stepped->node + slot.start, outcome.node + front, count);
        record[0] = slot.board;
        record[1] = 1;
        put16(record + 2, slot.start);
        put16(record + 4, count);
        if (code <= TRUE) {
            n->constant |= UINT64_C(1) << i;
            n->value |= (uint64_t)code << i;
        } else if (count == 1 && code < PLACE_HOLDER && !(n->masks[slot.board] >> code % 64 & 1)) {
            return STATE;
        }
    }
    return 0;
}

// One tick, from a layout to the next one: 0, or the refusal at which it stops.
static uint32_t tick(struct network *n, const struct layout *l, uint64_t event, uint64_t all, struct stepped *stepped,
                     struct layout *next)
{
    if (event & ~all)
        return BITS;
    if (n->sampled != 0)
        return ALREADY;
    uint32_t refusal = step_all(n, l, event, stepped);
    if (refusal != 0)
        return refusal;
    if (n->ticks == UINT32_MAX)
        return TICKS;
    n->slot = stepped->slot;
    n->node = stepped->node;
    return lay_again(n, next);
}

static void take_slots(const struct network *n, struct layout *l)
{
    l->slots = n->slots;
    l->nodes = n->nodes;
    for (size_t i = 0; i < n->slots; i++)
        l->slot[i] = slot_at(n->slot + SLOT * i);
    copy_bytes(l->node, n->node, n->nodes);
}

static uint64_t union_of(const struct network *n)
{
    uint64_t all = 0;
    for (size_t i = 0; i < n->boards; i++)
        all |= n->masks[i];
    return all;
}

uint32_t plain_capture(uint8_t *state, size_t state_len, uint8_t *second, size_t second_len, const uint64_t *events,
                       size_t events_len, uint64_t *closed, uint32_t *verdict, uint32_t *stop)
{
    struct network n;
    struct next nexts[MOST_NEXTS];
    struct stepped stepped;
    struct layout layouts[2], *last = &layouts[0], *next = &layouts[1];
    if (second_len != STATE_BYTES)
        return LENGTH;
    if (network_of(state, state_len, &n, NO_SLOT, nexts) != 0)
        return STATE;
    if (is_finished(&n))
        return FINISHED;
    clear_bytes(second, STATE_BYTES);
    take_slots(&n, last);
    uint64_t all = union_of(&n);
    size_t done = 0;
    *verdict = PENDING;
    *stop = 0;
    while (done < events_len && *verdict == PENDING) {
        *stop = tick(&n, last, events[done], all, &stepped, next);
        if (*stop != 0)
            break;
        struct layout *other = last;
        last = next;
        next = other;
        n.ticks++;
        done++;
        if (last->nodes == 1 && last->node[0] <= TRUE)
            *verdict = last->node[0];
    }
    if (done > 0)
        write_state(state, n.masks, n.boards, n.ticks, last);
    *closed = done;
    return 0;
}
