// Makes the formulas that more than one group of inputs uses.

#include "formulas.h"

void put(struct input *input, uint8_t byte)
{
    input->bytes[input->count++] = byte;
}

void put_all(struct input *input, const uint8_t *bytes, size_t count)
{
    for (size_t i = 0; i < count; i++)
        put(input, bytes[i]);
}

static uint64_t state;

void seed_random(uint64_t seed)
{
    state = seed;
}

size_t below(size_t limit)
{
    uint64_t z = state += UINT64_C(0x9e3779b97f4a7c15);
    z = (z ^ z >> 30) * UINT64_C(0xbf58476d1ce4e5b9);
    z = (z ^ z >> 27) * UINT64_C(0x94d049bb133111eb);
    return (size_t)((z ^ z >> 31) % limit);
}

void random_formula(struct input *input, size_t nodes, size_t first, size_t propositions)
{
    static size_t owed[MOST_BYTES];
    size_t depth = 0;
    owed[depth++] = nodes;
    while (depth > 0) {
        size_t size = owed[--depth];
        if (size == 1) {
            put(input, (uint8_t)(PROPOSITION + first + below(propositions)));
        } else if (size == 2 || below(2) == 0) {
            put(input, (uint8_t)(below(8) == 0 ? EVENTUALLY + below(2) : below(2) == 0 ? NOT : NEXT));
            owed[depth++] = size - 1;
        } else {
            size_t left = 1 + below(size - 2);
            put(input, (uint8_t)(below(8) == 0 ? UNTIL : AND + below(2)));
            owed[depth++] = size - 1 - left;
            owed[depth++] = left;
        }
    }
}
