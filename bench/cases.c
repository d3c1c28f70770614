// The table of the inputs that are timed, and those of read, write and central: small and large formulas, the smallest and the
// largest rule, and refusals.

#include "cases.h"
#include "constants.h"
#include "formulas.h"
#include "plain.h"
#include "slow.h"
#include "watches.h"

// The first random formula of a thousand nodes that is accepted and keeps a good part pending.
static void random_thousand(struct input *input)
{
    enum { COUNT = 1000 };
    static uint8_t output[MOST_FORMULA];
    uint32_t verdict;
    uint64_t length = 0, seed = 1;
    do {
        input->count = 0;
        seed_random(seed++);
        random_formula(input, COUNT, 0, 64);
    } while (plain_central(input->bytes, input->count, input->number, output, sizeof output, &verdict, &length) != 0 || length < COUNT / 4);
}

// Some 1,700 nodes, of which those thousand are left.
static void random_thousand_with_constants(struct input *input)
{
    random_thousand(input);
    put_beside_leaves(input);
}

static void until(struct input *input)
{
    put_all(input, (const uint8_t[]){UNTIL, PROPOSITION, PROPOSITION + 1}, 3);
}

static void always_eventually(struct input *input)
{
    put_all(input, (const uint8_t[]){ALWAYS, EVENTUALLY, PROPOSITION}, 3);
    input->number = 0;
}

// The chains have some 4,000 nodes. The joints alternate, and so do those that stay when dropped constants have taken theirs
// along: the member rule costs little.
enum { JOINTS = 1330 };

static uint8_t joint_at(size_t i)
{
    return i % 2 == 0 ? AND : OR;
}

// The operand of a joint: two in three pending, the third a proposition that is settled so that the joint drops it.
static void operand(struct input *input, size_t i)
{
    if (i % 3 == 0)
        put_all(input, (const uint8_t[]){NEXT, (uint8_t)(PROPOSITION + i % 64)}, 2);
    else if (i % 3 == 2)
        put_all(input, (const uint8_t[]){NEXT, EVENTUALLY, (uint8_t)(PROPOSITION + i % 61)}, 3);
    else
        put(input, (uint8_t)(PROPOSITION + (joint_at(i) == OR))); // the event has proposition 0 and not proposition 1
}

static void right_leaning(struct input *input)
{
    for (size_t i = 0; i < JOINTS; i++) {
        put(input, joint_at(i));
        operand(input, i);
    }
    operand(input, 0);
}

static void left_leaning(struct input *input)
{
    for (size_t i = 0; i < JOINTS; i++)
        put(input, joint_at(i));
    operand(input, 0);
    for (size_t i = JOINTS; i-- > 0;)
        operand(input, i);
}

// No code stands in the middle, half way for a reader from either end.
static void broken_chain(struct input *input)
{
    right_leaning(input);
    input->bytes[input->count / 2] = 255;
}

static void nested_always(struct input *input, size_t count)
{
    for (size_t i = 0; i < count; i++)
        put(input, ALWAYS);
    put(input, PROPOSITION);
}

static void most_always(struct input *input)
{
    nested_always(input, 87);
}

static void too_many_always(struct input *input)
{
    nested_always(input, 88);
}

static void far_too_many_always(struct input *input)
{
    nested_always(input, MOST_FORMULA - 1);
}

// For read the rule becomes its file.
static void finish_rule(struct input *input)
{
    static uint8_t file[1168];
    uint64_t length;
    if (input->call != READ)
        return;
    plain_write(input->masks, input->masks_count, input->number, input->bytes, input->count, file, sizeof file, &length);
    input->count = 0;
    put_all(input, file, length);
}

static void smallest(struct input *input)
{
    input->masks_count = 1;
    input->masks[0] = 1;
    input->number = 1;
    put(input, PROPOSITION);
    finish_rule(input);
}

static void largest(struct input *input)
{
    input->masks_count = MOST_MASKS;
    for (size_t i = 0; i < MOST_MASKS; i++)
        input->masks[i] = UINT64_C(0xf) << 4 * i;
    input->number = 64;
    seed_random(1);
    random_formula(input, 1024, 0, 64);
    finish_rule(input);
}

// The last mask lacks its highest bit.
static void bad_masks(struct input *input)
{
    largest(input);
    if (input->call == READ)
        input->bytes[16 + 8 * MOST_MASKS - 1] >>= 1;
    else
        input->masks[MOST_MASKS - 1] = UINT64_C(0x7) << 60;
}

// The last node is a place holder.
static void bad_formula(struct input *input)
{
    largest(input);
    input->bytes[input->count - 1] = 128;
}

// What a maker leaves becomes the call's input by the row's finisher, where it has one. A slow input names a typical one.
static const struct {
    const char *name;
    enum call call;
    void (*make)(struct input *);
    void (*finish)(struct input *);
    uint32_t refusal;
    const char *typical;
} table[] = {
    {"central: until over two propositions", CENTRAL, until, NULL, 0, NULL},
    {"central: always eventually", CENTRAL, always_eventually, NULL, 0, NULL},
    {"central: random rule of 1,000 nodes", CENTRAL, random_thousand, NULL, 0, NULL},
    {"central: 1,000 nodes and constants to fold", CENTRAL, random_thousand_with_constants, NULL, 0, NULL},
    {"central: 88 times always true", CENTRAL, always_true, NULL, 0, NULL},
    {"central: left-leaning chain", CENTRAL, left_leaning, NULL, 0, NULL},
    {"central: right-leaning chain", CENTRAL, right_leaning, NULL, 0, NULL},
    {"central: 87 times always", CENTRAL, most_always, NULL, 0, NULL},
    {"central: 88 times always, refused", CENTRAL, too_many_always, NULL, 8, NULL},
    {"central: 4,095 times always, refused", CENTRAL, far_too_many_always, NULL, 8, NULL},
    {"central: no code half way, refused", CENTRAL, broken_chain, NULL, 6, NULL},
    {"read: smallest rule", READ, smallest, NULL, 0, NULL},
    {"read: 16 boards, 1,024 nodes", READ, largest, NULL, 0, NULL},
    {"read: masks refused", READ, bad_masks, NULL, 5, NULL},
    {"read: formula refused at its end", READ, bad_formula, NULL, 6, NULL},
    {"write: smallest rule", WRITE, smallest, NULL, 0, NULL},
    {"write: 16 boards, 1,024 nodes", WRITE, largest, NULL, 0, NULL},
    {"write: masks refused", WRITE, bad_masks, NULL, 5, NULL},
    {"write: formula refused at its end", WRITE, bad_formula, NULL, 6, NULL},
    {"tick: until over 2 boards", TICK, until_over_two, finish_watch, 0, NULL},
    {"tick: responses over 4 boards", TICK, responses_over_four, finish_watch, 0, NULL},
    {"tick: responses over 16 boards", TICK, responses_over_sixteen, finish_watch, 0, NULL},
    {"tick: 999 nodes over 8 boards", TICK, thousand_nodes, finish_watch, 0, NULL},
    {"tick: 63 ors over 2 boards", TICK, ors_over_two, finish_watch, 0, NULL},
    {"capture: until over 2 boards", CAPTURE, until_over_two, finish_watch, 0, NULL},
    {"capture: responses over 4 boards", CAPTURE, responses_over_four, finish_watch, 0, NULL},
    {"capture: responses over 16 boards", CAPTURE, responses_over_sixteen, finish_watch, 0, NULL},
    {"capture: 999 nodes over 8 boards", CAPTURE, thousand_nodes, finish_watch, 0, NULL},
    {"capture: 63 ors over 2 boards", CAPTURE, ors_over_two, finish_watch, 0, NULL},
    {"capture, of plain's tick: until over 2 boards", CAPTURE_OF_TICK, until_over_two, finish_watch, 0, NULL},
    {"capture, of plain's tick: responses over 4 boards", CAPTURE_OF_TICK, responses_over_four, finish_watch, 0, NULL},
    {"capture, of plain's tick: responses over 16 boards", CAPTURE_OF_TICK, responses_over_sixteen, finish_watch, 0, NULL},
    {"capture, of plain's tick: 999 nodes over 8 boards", CAPTURE_OF_TICK, thousand_nodes, finish_watch, 0, NULL},
    {"capture, of plain's tick: 63 ors over 2 boards", CAPTURE_OF_TICK, ors_over_two, finish_watch, 0, NULL},
    {"load: until over 2 boards", LOAD, until_over_two, finish_watch, 0, NULL},
    {"load: responses over 4 boards", LOAD, responses_over_four, finish_watch, 0, NULL},
    {"load: responses over 16 boards", LOAD, responses_over_sixteen, finish_watch, 0, NULL},
    {"load: 999 nodes over 8 boards", LOAD, thousand_nodes, finish_watch, 0, NULL},
    {"load: 63 ors over 2 boards", LOAD, ors_over_two, finish_watch, 0, NULL},
    {"load: responses over 4 boards, with constants", LOAD, responses_with_constants, finish_watch, 0, NULL},
    {"load: 999 nodes over 8 boards, with constants", LOAD, thousand_nodes_with_constants, finish_watch, 0, NULL},
    {"sample: until over 2 boards", SAMPLE, until_over_two, finish_watch, 0, NULL},
    {"sample: responses over 4 boards", SAMPLE, responses_over_four, finish_watch, 0, NULL},
    {"sample: responses over 16 boards", SAMPLE, responses_over_sixteen, finish_watch, 0, NULL},
    {"sample: 999 nodes over 8 boards", SAMPLE, thousand_nodes, finish_watch, 0, NULL},
    {"sample: 63 ors over 2 boards", SAMPLE, ors_over_two, finish_watch, 0, NULL},
    {"step: until over 2 boards", STEP, until_over_two, finish_watch, 0, NULL},
    {"step: responses over 4 boards", STEP, responses_over_four, finish_watch, 0, NULL},
    {"step: responses over 16 boards", STEP, responses_over_sixteen, finish_watch, 0, NULL},
    {"step: 999 nodes over 8 boards", STEP, thousand_nodes, finish_watch, 0, NULL},
    {"step: 63 ors over 2 boards", STEP, ors_over_two, finish_watch, 0, NULL},
    {"close: until over 2 boards", CLOSE, until_over_two, finish_watch, 0, NULL},
    {"close: responses over 4 boards", CLOSE, responses_over_four, finish_watch, 0, NULL},
    {"close: responses over 16 boards", CLOSE, responses_over_sixteen, finish_watch, 0, NULL},
    {"close: 999 nodes over 8 boards", CLOSE, thousand_nodes, finish_watch, 0, NULL},
    {"close: 63 ors over 2 boards", CLOSE, ors_over_two, finish_watch, 0, NULL},
    {"ask: until over 2 boards", ASK, until_over_two, finish_watch, 0, NULL},
    {"ask: responses over 4 boards", ASK, responses_over_four, finish_watch, 0, NULL},
    {"ask: responses over 16 boards", ASK, responses_over_sixteen, finish_watch, 0, NULL},
    {"ask: 999 nodes over 8 boards", ASK, thousand_nodes, finish_watch, 0, NULL},
    {"ask: 63 ors over 2 boards", ASK, ors_over_two, finish_watch, 0, NULL},
    {"central: chain of members", CENTRAL, many_members, NULL, 0, "central: random rule of 1,000 nodes"},
    {"central: chain of short members", CENTRAL, short_members, NULL, 0, "central: random rule of 1,000 nodes"},
    {"central: long member", CENTRAL, long_member, NULL, 0, "central: random rule of 1,000 nodes"},
    {"central: zigzag", CENTRAL, zigzag, NULL, 0, "central: random rule of 1,000 nodes"},
    {"central: constants in no order", CENTRAL, constants_in_no_order, NULL, 0, "central: random rule of 1,000 nodes"},
    {"central: short members and true", CENTRAL, short_members_and_true, NULL, 0, "central: random rule of 1,000 nodes"},
    {"load: untils over 16 boards, refused", LOAD, untils_leaning_left, finish_watch, 8, "load: responses over 4 boards"},
    {"load: temporal tower, refused", LOAD, temporal_tower, finish_watch, 8, "load: responses over 4 boards"},
    {"load: next tower", LOAD, next_tower, finish_watch, 0, "load: responses over 4 boards"},
    {"load: untils over 16 boards and true, refused", LOAD, untils_and_true, finish_watch, 8, "load: responses over 4 boards"},
    {"load: next tower and true", LOAD, next_tower_and_true, finish_watch, 0, "load: responses over 4 boards"},
    {"sample: random nodes", SAMPLE, random_nodes, finish_handed, 0, "sample: responses over 4 boards"},
    {"sample: chain of short members", SAMPLE, short_members, finish_handed, 0, "sample: responses over 4 boards"},
    {"step: random nodes", STEP, random_nodes, finish_handed, 0, "step: responses over 4 boards"},
    {"step: chain of members", STEP, many_members, finish_handed, 0, "step: responses over 4 boards"},
    {"step: chain of short members", STEP, short_members, finish_handed, 0, "step: responses over 4 boards"},
    {"step: long member", STEP, long_member, finish_handed, 0, "step: responses over 4 boards"},
    {"step: zigzag", STEP, zigzag, finish_handed, 0, "step: responses over 4 boards"},
    {"close: untils over 16 boards, refused", CLOSE, untils_leaning_left, finish_handed, 8, "close: responses over 4 boards"},
    {"close: temporal tower, refused", CLOSE, temporal_tower, finish_handed, 8, "close: responses over 4 boards"},
    {"close: next tower", CLOSE, next_tower, finish_handed, 0, "close: responses over 4 boards"},
    {"ask: random nodes", ASK, random_nodes, finish_handed, 0, "ask: responses over 4 boards"},
    {"ask: chain of short members", ASK, short_members, finish_handed, 0, "ask: responses over 4 boards"},
};

const size_t input_count = sizeof table / sizeof table[0];
_Static_assert(sizeof table / sizeof table[0] <= MOST_CASES, "every case has room for its times");

void make_input(size_t which, struct input *input)
{
    *input = (struct input){.name = table[which].name, .call = table[which].call, .number = 1};
    input->refusal = table[which].refusal;
    input->typical = table[which].typical;
    table[which].make(input);
    if (table[which].finish != NULL)
        table[which].finish(input);
}
