// Makes the formulas, states and texts of deep.h.

#include "deep.h"

#include <string.h>

struct part {
    const char *name, *before, *behind;
};

// Bytes in octal as formulas have them: 1 true, 2 not, 3 and, 4 or, 5 next, 6 until, 7 eventually, 10 always, 100 and 101 propositions.
// Not true stands for false, whose byte, 0, would end a string.
static const struct part layers[] = {
    {"not .", "\2", ""},
    {"next .", "\5", ""},
    {"eventually .", "\7", ""},
    {"always .", "\10", ""},
    {". and a", "\3", "\100"},
    {"a and .", "\3\100", ""},
    {". and b", "\3", "\101"},
    {"b and .", "\3\101", ""},
    {". or a", "\4", "\100"},
    {"a or .", "\4\100", ""},
    {". or b", "\4", "\101"},
    {"b or .", "\4\101", ""},
    {". until a", "\6", "\100"},
    {"a until .", "\6\100", ""},
    {". until b", "\6", "\101"},
    {"b until .", "\6\101", ""},
    {". and next a", "\3", "\5\100"},
    {"next a and .", "\3\5\100", ""},
    {". or next b", "\4", "\5\101"},
    {"next b or .", "\4\5\101", ""},
    {"next next a or .", "\4\5\5\100", ""},
    {". and true", "\3", "\1"},
    {"true and .", "\3\1", ""},
    {". or not true", "\4", "\2\1"},
    {"not true until .", "\6\2\1", ""},
    {"true until .", "\6\1", ""},
};
const size_t layer_count = sizeof layers / sizeof *layers;

static const struct part cores[] = {
    {"a", "\100", ""},
    {"b", "\101", ""},
    {"next a", "\5\100", ""},
    {"true", "\1", ""},
};
const size_t core_count = sizeof cores / sizeof *cores;

const char *layer_name(size_t layer)
{
    return layers[layer].name;
}

const char *core_name(size_t core)
{
    return cores[core].name;
}

// A nest in the making: what stands before the hole, and what stands behind it, from the end on.
struct making {
    size_t before, behind;
    uint8_t front[VYDRULKA_NODES_MOST], back[VYDRULKA_NODES_MOST];
};

static void put_layer(struct making *making, const struct part *part)
{
    size_t before = strlen(part->before), behind = strlen(part->behind);
    memcpy(making->front + making->before, part->before, before);
    making->before += before;
    making->behind += behind;
    memcpy(making->back + sizeof making->back - making->behind, part->behind, behind);
}

static size_t size_of(const struct part *part)
{
    return strlen(part->before) + strlen(part->behind);
}

static void finish(struct formula *formula, struct making *making, const struct part *core)
{
    put_layer(making, core);
    memcpy(formula->bytes, making->front, making->before);
    memcpy(formula->bytes + making->before, making->back + sizeof making->back - making->behind, making->behind);
    formula->nodes = making->before + making->behind;
}

void nest(struct formula *formula, const struct pattern *pattern, size_t most, int filled)
{
    static struct making making;
    const struct part *core = &cores[pattern->core];
    making.before = making.behind = 0;
    size_t room = most - size_of(core);
    for (size_t i = 0;; i++) {
        const struct part *layer = &layers[pattern->layers[i % pattern->length]];
        if (size_of(layer) > room)
            break;
        put_layer(&making, layer);
        room -= size_of(layer);
    }
    for (; filled && room > 0; room--)
        put_layer(&making, &layers[0]);
    finish(formula, &making, core);
}

// splitmix64
uint64_t below(struct chance *chance, uint64_t limit)
{
    uint64_t z = chance->state += 0x9e3779b97f4a7c15;
    z = (z ^ z >> 30) * 0xbf58476d1ce4e5b9;
    z = (z ^ z >> 27) * 0x94d049bb133111eb;
    return (z ^ z >> 31) % limit;
}

void any_nest(struct formula *formula, struct chance *chance, size_t most)
{
    static struct making making;
    making.before = making.behind = 0;
    const struct part *core = &cores[below(chance, core_count)];
    size_t room = most - size_of(core), kinds = 1 + below(chance, layer_count);
    while (room > 3) {
        const struct part *layer = &layers[below(chance, kinds)];
        put_layer(&making, layer);
        room -= size_of(layer);
    }
    finish(formula, &making, core);
}

// Nodes by chance with room for all operands that are owed, and no end before the room is used. One leaf in sixteen is a constant.
void any_tree(struct formula *formula, struct chance *chance, size_t most)
{
    static const uint8_t nodes[] = {VYDRULKA_NODE_PROP, VYDRULKA_NODE_NOT, VYDRULKA_NODE_NEXT, VYDRULKA_NODE_EVENTUALLY,
                                    VYDRULKA_NODE_ALWAYS, VYDRULKA_NODE_AND, VYDRULKA_NODE_OR, VYDRULKA_NODE_UNTIL};
    size_t owed = 1, room = 1 + below(chance, most);
    for (formula->nodes = 0; owed > 0; room--) {
        size_t kinds = owed + 2 <= room ? 8 : owed < room ? 5 : 1;
        size_t least = owed == 1 && kinds > 1;
        size_t kind = least + below(chance, kinds - least);
        size_t first = kind == 0 && below(chance, 16) == 0 ? VYDRULKA_NODE_FALSE : nodes[kind];
        formula->bytes[formula->nodes++] = (uint8_t)(first + (kind == 0 ? below(chance, 2) : 0));
        owed += kind >= 5 ? 1 : kind == 0 ? -1 : 0;
    }
}

const uint64_t masks[2] = {1, 2};

static void put_16(uint8_t *bytes, size_t value)
{
    bytes[0] = (uint8_t)value;
    bytes[1] = (uint8_t)(value >> 8);
}

size_t file_of(uint8_t *file, const struct formula *formula)
{
    size_t length = 16 + 8 * 2 + formula->nodes;
    const size_t header[] = {1, 2, 2, formula->nodes, 16, 32, length, 0};
    memset(file, 0, VYDRULKA_FILE_MOST);
    for (size_t i = 0; i < 8; i++)
        put_16(file + 2 * i, header[i]);
    for (size_t i = 0; i < 2; i++)
        file[16 + 8 * i] = (uint8_t)masks[i];
    memcpy(file + 32, formula->bytes, formula->nodes);
    return length;
}

void state_of(uint8_t *state, const struct formula *formula, int stepped, size_t slots)
{
    size_t boards_at = 16, slots_at = boards_at + 17 * 2, nodes_at = slots_at + 6 * slots, nodes = formula->nodes;
    const size_t header[] = {2, slots, nodes * slots, boards_at, slots_at, nodes_at};
    memset(state, 0, VYDRULKA_STATE_LENGTH);
    for (size_t i = 0; i < 6; i++)
        put_16(state + 2 * i, header[i]);
    for (size_t i = 0; i < 2; i++) {
        state[boards_at + 17 * i] = (uint8_t)masks[i];
        state[boards_at + 17 * i + 16] = 1;
    }
    for (size_t i = 0; i < slots; i++) {
        uint8_t *record = state + slots_at + 6 * i, *stretch = state + nodes_at + nodes * i;
        record[0] = 0;
        record[1] = (uint8_t)stepped;
        put_16(record + 2, nodes * i);
        put_16(record + 4, nodes);
        memcpy(stretch, formula->bytes, nodes);
        uint8_t *leaf = memchr(stretch, VYDRULKA_NODE_PROP, nodes);
        if (leaf && i + 1 < slots)
            *leaf = (uint8_t)(VYDRULKA_NODE_HOLD + i + 1);
    }
}

void put_bracketed(uint8_t text[BRACKETED_LENGTH])
{
    memset(text, '!', NOTS);
    memset(text + NOTS, '(', BRACKETS);
    memcpy(text + NOTS + BRACKETS, "p0", 2);
    memset(text + NOTS + BRACKETS + 2, ')', BRACKETS);
}
