// Makes the slowest inputs known. A layout is slow where every part has scores on all boards and the whole is so large unfolded
// that it is refused with 8 only when all has been counted; a step where the member rule goes far; the check where it cannot
// guess the next node.

#include "slow.h"
#include "formulas.h"

enum { BOARDS = 16, EACH = 4, SPREAD = 2 * BOARDS - 1 };

static size_t room(const struct input *input)
{
    return input->call == LOAD ? 1023 : 4095;
}

static void share_out(struct input *input)
{
    input->masks_count = BOARDS;
    input->number = BOARDS * EACH;
    for (size_t i = 0; i < BOARDS; i++)
        input->masks[i] = UINT64_C(0xf) << EACH * i;
}

static void one_board(struct input *input)
{
    input->masks_count = 1;
    input->number = 64;
    input->masks[0] = UINT64_MAX;
}

// An and-chain with one proposition of each board, board 0's last: SPREAD nodes. What stands above it scores on all boards.
static void spread(struct input *input)
{
    for (size_t i = BOARDS; i-- > 1;)
        put_all(input, (const uint8_t[]){AND, (uint8_t)(PROPOSITION + EACH * i)}, 2);
    put(input, PROPOSITION);
}

// The right operands are board 0's, so that few parts are cut and the number of slots refuses nothing.
void untils_leaning_left(struct input *input)
{
    size_t count = (room(input) - SPREAD) / 2;
    share_out(input);
    for (size_t i = 0; i < count; i++)
        put(input, UNTIL);
    spread(input);
    for (size_t i = 0; i < count; i++)
        put(input, (uint8_t)(PROPOSITION + i % EACH));
}

void temporal_tower(struct input *input)
{
    size_t count = room(input) - SPREAD;
    share_out(input);
    for (size_t i = 0; i < count; i++)
        put(input, i % 2 == 0 ? EVENTUALLY : ALWAYS);
    spread(input);
}

// Stays one slot, and is accepted.
void next_tower(struct input *input)
{
    size_t count = room(input) - SPREAD;
    share_out(input);
    for (size_t i = 0; i < count; i++)
        put(input, NEXT);
    spread(input);
}

// Joints, nots, constants and propositions in no order.
void random_nodes(struct input *input)
{
    static size_t owed[MOST_FORMULA];
    size_t depth = 0;
    one_board(input);
    seed_random(1);
    owed[depth++] = room(input);
    while (depth > 0) {
        size_t size = owed[--depth];
        if (size == 1) {
            put(input, (uint8_t)(below(8) == 0 ? below(2) : PROPOSITION + below(64)));
        } else if (size == 2 || below(3) == 0) {
            put(input, NOT);
            owed[depth++] = size - 1;
        } else {
            size_t left = 1 + below(size - 2);
            put(input, (uint8_t)(AND + below(2)));
            owed[depth++] = size - 1 - left;
            owed[depth++] = left;
        }
    }
}

// A next over the until with this number: all of one size, told apart by their last bytes.
static void numbered(struct input *input, size_t number)
{
    put_all(input, (const uint8_t[]){NEXT, UNTIL, (uint8_t)(PROPOSITION + number / 64), (uint8_t)(PROPOSITION + number % 64)}, 4);
}

// An and-chain of 800 operands: the first half equal its last member, so that each of them passes all the others to find it.
// The event does not matter here and below: all stands under next.
void many_members(struct input *input)
{
    enum { HALF = 400 };
    one_board(input);
    for (size_t i = 0; i < 2 * HALF; i++) {
        put(input, AND);
        numbered(input, i < HALF ? HALF : i - HALF);
    }
    numbered(input, HALF);
}

// An and-chain whose last member is proposition 0, behind every other proposition, every operand of two nodes and some of three;
// what room there is in front of them is filled with proposition 0, which each time goes all the way. Each under next.
void short_members(struct input *input)
{
    enum { PAIRS = 4 * 64, TRIPLES = 128, LAST = 2, ALL = 3 * 63 + 4 * PAIRS + 5 * TRIPLES + LAST };
    static const uint8_t over[] = {NOT, NEXT, EVENTUALLY, ALWAYS};
    one_board(input);
    for (size_t i = 0; i < (MOST_FORMULA - ALL) / 3; i++)
        put_all(input, (const uint8_t[]){AND, NEXT, PROPOSITION}, 3);
    for (size_t i = 0; i < TRIPLES; i++)
        put_all(input, (const uint8_t[]){AND, NEXT, UNTIL, (uint8_t)(PROPOSITION + i / 64), (uint8_t)(PROPOSITION + i % 64)}, 5);
    for (size_t i = 0; i < PAIRS; i++)
        put_all(input, (const uint8_t[]){AND, NEXT, over[i / 64], (uint8_t)(PROPOSITION + i % 64)}, 4);
    for (size_t i = 1; i < 64; i++)
        put_all(input, (const uint8_t[]){AND, NEXT, (uint8_t)(PROPOSITION + i)}, 3);
    put_all(input, (const uint8_t[]){NEXT, PROPOSITION}, LAST);
}

// An and-chain of one long member and proposition 0, and proposition 0 many times in front: whoever does not know where the long
// member ends reads it each time.
void long_member(struct input *input)
{
    enum { LONG = 2000, LAST = 2, COPIES = (MOST_FORMULA - LAST - LONG - 2) / 3 };
    one_board(input);
    for (size_t i = 0; i < COPIES; i++)
        put_all(input, (const uint8_t[]){AND, NEXT, PROPOSITION}, 3);
    put_all(input, (const uint8_t[]){AND, NEXT}, 2);
    for (size_t i = 0; i + 1 < LONG; i++)
        put(input, NOT);
    put_all(input, (const uint8_t[]){PROPOSITION + 1, NEXT, PROPOSITION}, 1 + LAST);
}

// Joints whose right operand loses its operator, at every level: whoever resolves in place moves the rest up each time. The
// joints alternate, so that the member rule costs little. Central would fold a true, so that it gets a proposition and an event which
// makes it true.
void zigzag(struct input *input)
{
    enum { LEVELS = (MOST_FORMULA - 2) / 5 };
    uint8_t last = input->call == CENTRAL ? PROPOSITION : TRUE;
    one_board(input);
    if (input->call == CENTRAL)
        input->number = 1;
    for (size_t i = 0; i < LEVELS; i++)
        put_all(input, (const uint8_t[]){i % 2 == 0 ? AND : OR, NEXT, (uint8_t)(PROPOSITION + i % 64), AND}, 4);
    put_all(input, (const uint8_t[]){NEXT, PROPOSITION}, 2);
    for (size_t i = 0; i < LEVELS; i++)
        put(input, last);
}
