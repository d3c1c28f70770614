// One pass over the header, the records and the nodes; the rest is cleared.

#include "state.h"

void write_state(uint8_t *state, const uint64_t *masks, size_t boards, uint32_t ticks, const struct layout *l)
{
    size_t nodes = nodes_at(boards, l->slots);
    put16(state, boards);
    put16(state + 2, l->slots);
    put16(state + 4, l->nodes);
    put16(state + 6, HEADER);
    put16(state + 8, slots_at(boards));
    put16(state + 10, nodes);
    put32(state + 12, ticks);
    for (size_t i = 0; i < boards; i++) {
        uint8_t *record = state + HEADER + BOARD * i;
        put64(record, masks[i]);
        put64(record + 8, 0);
        record[16] = 0;
    }
    for (size_t i = 0; i < l->slots; i++) {
        uint8_t *record = state + slots_at(boards) + SLOT * i;
        record[0] = l->slot[i].board;
        record[1] = 0;
        put16(record + 2, l->slot[i].start);
        put16(record + 4, l->slot[i].length);
    }
    copy_bytes(state + nodes, l->node, l->nodes);
    clear_bytes(state + nodes + l->nodes, STATE_BYTES - nodes - l->nodes);
}
