// Times the library's calls beside the plain C version, in one process and on the same inputs, and prints a line for each case:
// nanoseconds a call, a whole tick, or an event of a capture, for both, and how many times the plain version's time the library
// takes. Rounds of the two sides alternate and the best round counts. Before that both must give equal answers and equal bytes.

#include "cases.h"
#include "clock.h"
#include "million.h"
#include "plain.h"
#include "recordings.h"
#include "reports.h"
#include "sides.h"
#include "texts.h"

#include <stdio.h>
#include <string.h>

enum { ROUNDS = 25 };
static const double ROUND = 1e6; // nanoseconds, at least

// What a call answered and all that it was lent.
struct outcome {
    uint32_t number;
    uint32_t verdict, ticks, stop;
    uint64_t values[3];
    uint64_t masks[MOST_MASKS];
    uint8_t bytes[MOST_BYTES];
    uint8_t second[MOST_BYTES];
};

static uint32_t run_ticks(const struct side *side, const struct input *in, uint8_t *state, uint8_t *second)
{
    uint32_t number = 0;
    memcpy(state, in->bytes, STATE_BYTES);
    for (size_t i = 0; i < in->ticks && number == 0; i++) {
        number = tick(side, in, in->events[i], state, second);
        uint8_t *other = state;
        state = second;
        second = other;
    }
    return number;
}

static uint32_t run_capture(const struct side *side, const struct input *in, struct outcome *out)
{
    memcpy(out->bytes, in->bytes, STATE_BYTES);
    return side->capture(out->bytes, STATE_BYTES, out->second, STATE_BYTES, in->events, in->ticks, &out->values[0], &out->verdict,
                         &out->stop);
}

// Turns what ticks leave, the last state in one buffer or the other, into what a capture of them leaves.
static void as_captured(const struct input *in, struct outcome *out)
{
    uint32_t ticks;
    uint64_t slots, nodes;
    if (in->ticks % 2 == 1)
        memcpy(out->bytes, out->second, STATE_BYTES);
    memset(out->second, 0, STATE_BYTES);
    out->values[0] = in->ticks;
    out->stop = plain_ask(out->bytes, STATE_BYTES, &out->verdict, &ticks, &slots, &nodes);
}

// Puts back what the last call of sample or step wrote.
static void put_back(const struct input *in, struct outcome *out)
{
    memcpy(out->bytes + in->touched, in->bytes + in->touched, in->past - in->touched);
}

static void call(const struct side *side, const struct input *in, struct outcome *out)
{
    switch (in->call) {
    case READ:
        out->number = side->read(in->bytes, in->count, out->masks, MOST_MASKS, out->bytes, 1024, &out->values[0], &out->values[1],
                                 &out->values[2]);
        break;
    case WRITE:
        out->number = side->write(in->masks, in->masks_count, in->number, in->bytes, in->count, out->bytes, 1168, &out->values[0]);
        break;
    case CENTRAL:
        out->number = side->central(in->bytes, in->count, in->number, out->bytes, MOST_FORMULA, &out->verdict, &out->values[0]);
        break;
    case LOAD:
        out->number = side->load(in->bytes, in->count, out->bytes, STATE_BYTES);
        break;
    case SAMPLE:
        put_back(in, out);
        out->number = side->sample(out->bytes, STATE_BYTES, in->board, in->number);
        break;
    case STEP:
        put_back(in, out);
        out->number = side->step(out->bytes, STATE_BYTES, in->number);
        break;
    case CLOSE:
        out->number = side->close(in->bytes, STATE_BYTES, out->second, STATE_BYTES);
        break;
    case ASK:
        out->number = side->ask(in->bytes, STATE_BYTES, &out->verdict, &out->ticks, &out->values[0], &out->values[1]);
        break;
    case TICK:
        out->number = run_ticks(side, in, out->bytes, out->second);
        break;
    case CAPTURE:
        out->number = run_capture(side, in, out);
        break;
    case CAPTURE_OF_TICK:
        out->number = side == &library ? run_capture(side, in, out) : run_ticks(side, in, out->bytes, out->second);
        break;
    }
}

// Calls with a fresh outcome: a pattern, so that what neither side may write stays equal, and the state of sample and step.
static void call_fresh(const struct side *side, const struct input *in, struct outcome *out)
{
    memset(out, 0x5a, sizeof *out);
    if (in->call == SAMPLE || in->call == STEP)
        memcpy(out->bytes, in->bytes, STATE_BYTES);
    call(side, in, out);
    if (in->call == CAPTURE_OF_TICK && side == &plain)
        as_captured(in, out);
}

static int agree(const struct input *in, struct outcome *ours, struct outcome *theirs)
{
    call_fresh(&library, in, ours);
    call_fresh(&plain, in, theirs);
    return theirs->number == in->refusal && memcmp(ours, theirs, sizeof *ours) == 0;
}

// Nanoseconds for so many calls.
static double timed(const struct side *side, const struct input *in, struct outcome *out, long turns)
{
    double begin = now();
    for (long i = 0; i < turns; i++)
        call(side, in, out);
    return now() - begin;
}

struct times {
    const char *name;
    double ours, theirs; // nanoseconds a call, a tick, or an event
};

// How often a side is called in one round.
static long turns_of(const struct side *side, const struct input *in, struct outcome *out)
{
    long turns = 1;
    while (timed(side, in, out, turns) < ROUND)
        turns *= 2;
    return turns;
}

static struct times measured(const struct input *in, struct outcome *out)
{
    long our_turns = turns_of(&library, in, out), their_turns = turns_of(&plain, in, out);
    double ours = timed(&library, in, out, our_turns), theirs = timed(&plain, in, out, their_turns);
    for (int i = 1; i < ROUNDS; i++) {
        ours = least(ours, timed(&library, in, out, our_turns));
        theirs = least(theirs, timed(&plain, in, out, their_turns));
    }
    double ticks = (double)(in->call >= TICK ? in->ticks : 1);
    return (struct times){in->name, ours / (double)our_turns / ticks, theirs / (double)their_turns / ticks};
}

// A slow input's line ends with its times as multiples of the typical one's, which is among those before it.
static void print_times(const struct times *all, size_t which, const char *typical)
{
    const struct times *t = &all[which];
    printf("%-52s %10.0f %10.0f %7.2f", t->name, t->ours, t->theirs, t->ours / t->theirs);
    for (size_t i = 0; typical != NULL && i < which; i++)
        if (strcmp(all[i].name, typical) == 0)
            printf("   %.0f and %.0f times \"%s\"", t->ours / all[i].ours, t->theirs / all[i].theirs, typical);
    putchar('\n');
    fflush(stdout);
}

int main(void)
{
    static struct input in;
    static struct outcome ours, theirs;
    static struct times times[MOST_CASES];
    printf("%-52s %10s %10s %7s\n", "case", "library ns", "plain C ns", "ratio");
    for (size_t i = 0; i < input_count; i++) {
        make_input(i, &in);
        if (!agree(&in, &ours, &theirs)) {
            printf("%s: the sides differ, the library answers %u and the plain version %u\n", in.name, (unsigned)ours.number,
                   (unsigned)theirs.number);
            return 1;
        }
        times[i] = measured(&in, &ours);
        print_times(times, i, in.typical);
    }
    return time_texts() || time_reports() || time_recordings() || time_million();
}
