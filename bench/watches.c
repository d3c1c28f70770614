// Makes the rules that are watched, and from them files and states, by the plain version's own calls.

#include "watches.h"
#include "formulas.h"
#include "plain.h"

#include <string.h>

// ---- Rules

void until_over_two(struct input *input)
{
    put_all(input, (const uint8_t[]){UNTIL, PROPOSITION, PROPOSITION + 1}, 3);
    input->masks_count = input->number = 2;
    input->masks[0] = 1;
    input->masks[1] = 2;
    input->ticks = MOST_TICKS;
    for (size_t i = 0; i < input->ticks; i++)
        input->events[i] = 1;
}

// An and-chain of as many responses as boards: always, a on one board or eventually b on the next. Every second tick gives all
// that the others left owed. The network grows by that: over 16 boards it is refused after two ticks.
static void responses(struct input *input, size_t boards, size_t ticks)
{
    input->masks_count = boards;
    input->number = 2 * boards;
    for (size_t i = 0; i < boards; i++) {
        uint8_t a = (uint8_t)(PROPOSITION + 2 * i), b = a + 1;
        input->masks[i] |= UINT64_C(1) << 2 * i;
        input->masks[(i + 1) % boards] |= UINT64_C(2) << 2 * i;
        if (i + 1 < boards)
            put(input, AND);
        put_all(input, (const uint8_t[]){ALWAYS, OR, a, EVENTUALLY, b}, 5);
    }
    input->ticks = ticks;
    for (size_t i = 1; i < ticks; i += 2)
        input->events[i] = UINT64_MAX >> (64 - input->number);
}

void responses_over_four(struct input *input)
{
    responses(input, 4, 8);
}

void responses_over_sixteen(struct input *input)
{
    responses(input, 16, 2);
}

// An and-chain of responses, each with a random formula in place of a, one board's after the other's. As responses they stay
// pending whatever the events, and with this seed the layouts stay below both limits.
void thousand_nodes(struct input *input)
{
    enum { BOARDS = 8, EACH = 8, PARTS = 50, NODES = 15 };
    seed_random(1);
    input->masks_count = BOARDS;
    input->number = BOARDS * EACH;
    for (size_t i = 0; i < BOARDS; i++)
        input->masks[i] = UINT64_C(0xff) << EACH * i;
    for (size_t i = 0; i < PARTS; i++) {
        size_t first = EACH * (i * BOARDS / PARTS);
        if (i + 1 < PARTS)
            put(input, AND);
        put_all(input, (const uint8_t[]){ALWAYS, OR}, 2);
        random_formula(input, NODES, first, EACH);
        put_all(input, (const uint8_t[]){EVENTUALLY, (uint8_t)(PROPOSITION + first + below(EACH))}, 2);
    }
    input->ticks = 8;
    for (size_t i = 0; i < input->ticks; i++)
        input->events[i] = (uint64_t)below((size_t)1 << 32) << 32 | below((size_t)1 << 32);
}

void ors_over_two(struct input *input)
{
    enum { COPIES = 63 };
    for (size_t i = 0; i < COPIES; i++) {
        if (i + 1 < COPIES)
            put(input, AND);
        put_all(input, (const uint8_t[]){OR, PROPOSITION, PROPOSITION + 1}, 3);
    }
    input->masks_count = input->number = 2;
    input->masks[0] = 1;
    input->masks[1] = 2;
    input->ticks = 1; // it has its verdict then
    input->events[0] = 2;
}

// Always, a or eventually b, with b in every second tick. With b on the first board the network never has more than two slots.
void response_over_two(struct input *input)
{
    put_all(input, (const uint8_t[]){ALWAYS, OR, PROPOSITION, EVENTUALLY, PROPOSITION + 1}, 5);
    input->masks_count = input->number = 2;
    input->masks[0] = 2;
    input->masks[1] = 1;
    input->ticks = 2;
    input->events[1] = 2;
}

// ---- Files and states

static void make_file(struct input *input)
{
    static uint8_t file[1168];
    uint64_t length = 0;
    plain_write(input->masks, input->masks_count, input->number, input->bytes, input->count, file, sizeof file, &length);
    input->count = 0;
    put_all(input, file, length);
}

static size_t slots_of(const uint8_t *state)
{
    return state[2];
}

// All samples, and all steps down to this slot: 0 where none is refused.
static uint32_t step_down_to(uint8_t *state, const struct input *input, uint64_t event, size_t last)
{
    uint32_t refusal = 0;
    for (size_t i = 0; i < input->masks_count && refusal == 0; i++)
        refusal = plain_sample(state, STATE_BYTES, i, event & input->masks[i]);
    for (size_t i = slots_of(state); i-- > last && refusal == 0;)
        refusal = plain_step(state, STATE_BYTES, i);
    return refusal;
}

// Runs so many ticks of a rule's events from its load on: 0 where none is refused.
static uint32_t run_ticks(const struct input *input, size_t ticks, uint8_t *state)
{
    static uint8_t second[STATE_BYTES];
    static struct input rule;
    rule = *input;
    make_file(&rule);
    uint32_t refusal = plain_load(rule.bytes, rule.count, state, STATE_BYTES);
    for (size_t i = 0; i < ticks && refusal == 0; i++) {
        refusal = step_down_to(state, input, input->events[i], 0);
        if (refusal == 0)
            refusal = plain_close(state, STATE_BYTES, second, STATE_BYTES);
        if (refusal == 0)
            memcpy(state, second, STATE_BYTES);
    }
    return refusal;
}

static void put_state(struct input *input, const uint8_t *state)
{
    input->count = 0;
    put_all(input, state, STATE_BYTES);
}

// What sample on board 0 and step of slot 0 may write: the board's record; from the slot's record to the end of its stretch.
static void note_touched(struct input *input)
{
    const uint8_t *state = input->bytes;
    size_t slots_at = 16 + 17 * (size_t)state[0], nodes_at = slots_at + 6 * slots_of(state);
    input->touched = input->call == SAMPLE ? 16 : slots_at;
    input->past = input->call == SAMPLE ? 16 + 17 : nodes_at + state[slots_at + 4] + 256 * (size_t)state[slots_at + 5];
}

void finish_watch(struct input *input)
{
    static uint8_t state[STATE_BYTES];
    size_t before = input->call >= TICK ? 0 : input->ticks / 2;
    uint64_t event = input->events[before];
    if (input->call == LOAD) {
        make_file(input);
        return;
    }
    run_ticks(input, before, state);
    if (input->call == STEP || input->call == CLOSE)
        step_down_to(state, input, event, input->call == STEP ? 1 : 0);
    put_state(input, state);
    input->board = 0;
    input->number = input->call == SAMPLE ? event & input->masks[0] : 0;
    note_touched(input);
}

static void put_number(uint8_t **at, uint64_t number, size_t count)
{
    for (size_t i = 0; i < count; i++)
        *(*at)++ = (uint8_t)(number >> 8 * i);
}

void finish_handed(struct input *input)
{
    static uint8_t state[STATE_BYTES];
    size_t boards = input->masks_count;
    int sampled = input->call != SAMPLE, stepped = input->call == CLOSE;
    const uint64_t header[6] = {boards, 1, input->count, 16, 16 + 17 * boards, 16 + 17 * boards + 6};
    uint8_t *at = state;
    memset(state, 0, sizeof state);
    for (size_t i = 0; i < 6; i++)
        put_number(&at, header[i], 2);
    put_number(&at, 0, 4);
    for (size_t i = 0; i < boards; i++) {
        put_number(&at, input->masks[i], 8);
        put_number(&at, 0, 8);
        *at++ = (uint8_t)sampled;
    }
    *at++ = 0;
    *at++ = (uint8_t)stepped;
    put_number(&at, 0, 2);
    put_number(&at, input->count, 2);
    memcpy(at, input->bytes, input->count);
    put_state(input, state);
    input->board = input->number = 0;
    note_touched(input);
}
