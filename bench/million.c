// A million events of a rule that stays pending and whose network stays small: by capture in one call, by capture in pieces, and,
// of the first 20,000, by the single calls. Rounds of the two sides alternate and the best one counts. Both must end in the same state.

#include "million.h"
#include "clock.h"
#include "sides.h"
#include "watches.h"

#include <stdio.h>
#include <string.h>

enum { MILLION = 1000000, FEW = 20000, PIECE = 1000, ROUNDS = 2 };

static uint64_t events[MILLION];

// Goes through all events from the state on, and leaves the last state there: 0 where none is refused.
typedef uint32_t way(const struct side *side, const struct input *in, uint8_t *state);

// By as many captures as pieces of this size make.
static uint32_t capture_by(const struct side *side, uint8_t *state, size_t piece)
{
    static uint8_t second[STATE_BYTES];
    uint32_t number = 0, verdict, stop = 0;
    uint64_t closed;
    for (size_t i = 0; i < MILLION && number == 0 && stop == 0; i += piece)
        number = side->capture(state, STATE_BYTES, second, STATE_BYTES, events + i, piece, &closed, &verdict, &stop);
    return number == 0 ? stop : number;
}

static uint32_t one_capture(const struct side *side, const struct input *in, uint8_t *state)
{
    (void)in;
    return capture_by(side, state, MILLION);
}

static uint32_t captures(const struct side *side, const struct input *in, uint8_t *state)
{
    (void)in;
    return capture_by(side, state, PIECE);
}

// The buffers change places with each tick, and there is an even number of them.
static uint32_t single_calls(const struct side *side, const struct input *in, uint8_t *state)
{
    static uint8_t second[STATE_BYTES];
    uint32_t number = 0;
    for (size_t i = 0; i < FEW && number == 0; i += 2) {
        number = tick(side, in, events[i], state, second);
        if (number == 0)
            number = tick(side, in, events[i + 1], second, state);
    }
    return number;
}

static const struct {
    const char *name;
    way *go;
    size_t count;
} ways[] = {{"one capture", one_capture, MILLION}, {"captures of 1,000", captures, MILLION}, {"single calls", single_calls, FEW}};

// One round: its nanoseconds; 0 where a call is refused, or where the last state is not the wanted one, which the first round leaves.
static double timed(const struct side *side, const struct input *in, way *go, uint8_t *wanted)
{
    static uint8_t state[STATE_BYTES];
    memcpy(state, in->bytes, STATE_BYTES);
    double begin = now();
    uint32_t number = go(side, in, state);
    double time = now() - begin;
    if (wanted[0] == 0)
        memcpy(wanted, state, STATE_BYTES);
    return number == 0 && memcmp(state, wanted, STATE_BYTES) == 0 ? time : 0;
}

// A line for each way with one rule: 0, or 1 where it does not end in the same state.
static int time_rule(const char *name, void (*make)(struct input *))
{
    static struct input in;
    in = (struct input){.name = name, .call = CAPTURE};
    make(&in);
    for (size_t i = 0; i < MILLION; i++)
        events[i] = in.events[i % in.ticks];
    finish_watch(&in);
    for (size_t i = 0; i < sizeof ways / sizeof *ways; i++) {
        uint8_t wanted[STATE_BYTES] = {0};
        double ours = timed(&library, &in, ways[i].go, wanted), theirs = timed(&plain, &in, ways[i].go, wanted);
        for (int round = 1; round < ROUNDS; round++) {
            ours = least(ours, timed(&library, &in, ways[i].go, wanted));
            theirs = least(theirs, timed(&plain, &in, ways[i].go, wanted));
        }
        int at = printf("%s, %s", name, ways[i].name);
        if (ours == 0 || theirs == 0) {
            printf(": refused, or not the same state in the end\n");
            return 1;
        }
        printf("%*s %10.0f %10.0f %7.2f\n", 52 - at, "", 1e9 * ways[i].count / ours, 1e9 * ways[i].count / theirs, ours / theirs);
        fflush(stdout);
    }
    return 0;
}

int time_million(void)
{
    printf("\n%-52s %10s %10s %7s\n", "a million events, in events a second", "library", "plain C", "ratio");
    return time_rule("until over 2 boards", until_over_two) || time_rule("response over 2 boards", response_over_two);
}
