// A whole watch through the library: the rule "a until b", typed as p0 U p1, where board 0 sees a and board 1 sees b, over three
// events. It prints the lines of the run program, ticks, verdict, slots and nodes after the load and after each tick, and then the
// verdict. Each tick has its line, so each event is a capture of its own. Where nobody looks at the ticks between, one call takes
// all events.

#include "../include/vydrulka.h"

#include <inttypes.h>
#include <stdio.h>
#include <stdlib.h>

enum { A, B, PROPOSITIONS };
enum { BOARDS = 2 };

static const uint64_t masks[BOARDS] = {1 << A, 1 << B};
static const char text[] = "p0 U p1";

static const uint64_t events[] = {1 << A, 1 << A, 1 << B};
enum { EVENTS = sizeof events / sizeof *events };

// What ask gives.
struct standing {
    uint32_t verdict, ticks;
    uint64_t slots, nodes;
};

// Ends the program where a call was refused, or an event.
static void must_accept(const char *what, uint32_t answer)
{
    if (answer == VYDRULKA_ACCEPTED)
        return;
    fprintf(stderr, "%s refused %" PRIu32 ": %s\n", what, answer, vydrulka_refusal_words(answer));
    exit(EXIT_FAILURE);
}

// Reads the rule as it is typed: the number of nodes. Where that is refused it tells the place.
static uint64_t parse(uint8_t *formula)
{
    uint64_t nodes, line, byte;
    uint32_t answer =
        vydrulka_parse((const uint8_t *)text, sizeof text - 1, formula, VYDRULKA_RULE_NODES_MOST, &nodes, &line, &byte);
    if (answer == VYDRULKA_REFUSED_TEXT)
        fprintf(stderr, "line %" PRIu64 ", byte %" PRIu64 ": ", line, byte);
    must_accept("parse", answer);
    return nodes;
}

// Reads the rule, writes its file and loads that.
static void load(uint8_t *state)
{
    uint8_t formula[VYDRULKA_RULE_NODES_MOST], file[VYDRULKA_FILE_MOST];
    uint64_t length, nodes = parse(formula);
    must_accept("write", vydrulka_write(masks, BOARDS, PROPOSITIONS, formula, nodes, file, sizeof file, &length));
    must_accept("load", vydrulka_load(file, length, state, VYDRULKA_STATE_LENGTH));
}

// One tick: the state becomes the closed one, and the second buffer is room to work in. A call that comes to an event which is
// refused is itself accepted, and `stop` tells why.
static void tick(uint8_t *state, uint8_t *second, uint64_t event)
{
    uint64_t closed;
    uint32_t verdict, stop;
    must_accept("capture", vydrulka_capture(state, VYDRULKA_STATE_LENGTH, second, VYDRULKA_STATE_LENGTH, &event, 1, &closed,
                                            &verdict, &stop));
    must_accept("event", stop);
}

// Asks how the watch stands and prints it.
static struct standing report(const uint8_t *state)
{
    struct standing now;
    must_accept("ask", vydrulka_ask(state, VYDRULKA_STATE_LENGTH, &now.verdict, &now.ticks, &now.slots, &now.nodes));
    printf("%" PRIu32 " %s %" PRIu64 " %" PRIu64 "\n", now.ticks, vydrulka_verdict_words(now.verdict), now.slots, now.nodes);
    return now;
}

int main(void)
{
    uint8_t state[VYDRULKA_STATE_LENGTH], second[VYDRULKA_STATE_LENGTH];
    load(state);
    struct standing now = report(state);
    for (size_t i = 0; i < EVENTS && now.verdict == VYDRULKA_VERDICT_PENDING; i++) {
        tick(state, second, events[i]);
        now = report(state);
    }
    printf("a until b is %s after %" PRIu32 " ticks\n", vydrulka_verdict_words(now.verdict), now.ticks);
    return EXIT_SUCCESS;
}
