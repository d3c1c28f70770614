// Makes inputs with constants to fold: rules and formulas as there are others, with constants put in.

#include "constants.h"
#include "formulas.h"
#include "slow.h"
#include "watches.h"

#include <string.h>

void put_beside_leaves(struct input *input)
{
    static uint8_t formula[MOST_BYTES];
    static const uint8_t before[][2] = {{AND, TRUE}, {OR, FALSE}, {UNTIL, FALSE}};
    size_t count = input->count;
    memcpy(formula, input->bytes, count);
    input->count = 0;
    for (size_t i = 0; i < count; i++) {
        size_t way = below(5);
        if (formula[i] < PROPOSITION)
            put(input, formula[i]);
        else if (way < 3)
            put_all(input, (const uint8_t[]){before[way][0], before[way][1], formula[i]}, 3);
        else
            put_all(input, (const uint8_t[]){before[way - 3][0], formula[i], before[way - 3][1]}, 3);
    }
}

void always_true(struct input *input)
{
    enum { COUNT = 88 };
    for (size_t i = 0; i < COUNT; i++)
        put(input, ALWAYS);
    put(input, TRUE);
}

void responses_with_constants(struct input *input)
{
    responses_over_four(input);
    seed_random(1);
    put_beside_leaves(input);
}

// One leaf in sixteen is a constant, by chance. With this seed the layout stays below both limits.
void thousand_nodes_with_constants(struct input *input)
{
    thousand_nodes(input);
    seed_random(1);
    for (size_t i = 0; i < input->count; i++)
        if (input->bytes[i] >= PROPOSITION && below(16) == 0)
            input->bytes[i] = (uint8_t)below(2);
}

// Every second leaf is a constant, below operators of all kinds: whoever folds it cannot guess the next node.
void constants_in_no_order(struct input *input)
{
    seed_random(1);
    random_formula(input, MOST_FORMULA, 0, 64);
    for (size_t i = 0; i < input->count; i++)
        if (input->bytes[i] >= PROPOSITION && below(2) == 0)
            input->bytes[i] = (uint8_t)below(2);
}

// What is slow without constants, with one: all of it is folded, and only that one falls away. In front of it an and with true takes
// the place of so many of its nodes; so many more go at its end.
static void put_true_in_front(struct input *input, size_t in_front, size_t at_end)
{
    input->count -= in_front + at_end;
    memmove(input->bytes + 2, input->bytes + in_front, input->count);
    input->bytes[0] = AND;
    input->bytes[1] = TRUE;
    input->count += 2;
}

// The chain's first link goes.
void short_members_and_true(struct input *input)
{
    short_members(input);
    put_true_in_front(input, 3, 0);
}

// The outermost until goes, with its right operand.
void untils_and_true(struct input *input)
{
    untils_leaning_left(input);
    put_true_in_front(input, 1, 1);
}

// The first next goes.
void next_tower_and_true(struct input *input)
{
    next_tower(input);
    put_true_in_front(input, 1, 0);
}
