// Parse on small and large rules as people type them, on a million brackets and on chains, and print of the rules among them. Rounds
// of the two sides alternate and the best one counts. Before that both must give equal answers and equal bytes.

#include "texts.h"
#include "clock.h"
#include "formulas.h"
#include "plain.h"
#include "sides.h"

#include <stdio.h>
#include <string.h>

enum { MILLION = 1000000, MOST_TEXT = 2 * MILLION + 2, MOST_PRINT = 8192, MOST_RULE = 1024, ROUNDS = 25 };
static const double ROUND = 1e6; // nanoseconds, at least

// What is parsed, and what is printed.
static struct {
    uint8_t bytes[MOST_TEXT];
    size_t count;
} text;
static struct input rule;

static void type(const char *word)
{
    size_t length = strlen(word);
    memcpy(text.bytes + text.count, word, length);
    text.count += length;
}

static void type_times(size_t times, const char *word)
{
    for (size_t i = 0; i < times; i++)
        type(word);
}

static void workshop_rule(void)
{
    type("G(!p0|!p1Up2)");
}

// A random rule as large as there are, with a space on both sides of each infix sign.
static void large_rule(void)
{
    static uint8_t print[MOST_PRINT];
    uint64_t length = 0;
    seed_random(1);
    random_formula(&rule, MOST_RULE, 0, 64);
    plain_print(rule.bytes, rule.count, print, sizeof print, &length);
    for (size_t i = 0; i < length; i++) {
        const char sign[] = {' ', (char)print[i], ' ', 0}, alone[] = {(char)print[i], 0};
        type(strchr("|&U", print[i]) != NULL ? sign : alone);
    }
}

static void large_rule_with_a_bracket_too_many(void)
{
    large_rule();
    type(")");
}

static void million_brackets(void)
{
    type_times(MILLION, "(");
    type("p0");
    type_times(MILLION, ")");
}

static void and_chain(void)
{
    type_times(MOST_RULE / 2 - 1, "p17&");
    type("p17");
}

static void far_too_long_chain(void)
{
    type_times(MILLION / 4 - 1, "p17&");
    type("p17");
}

static void left_leaning_chain(void)
{
    enum { COUNT = MOST_RULE / 2 - 1 };
    type_times(COUNT - 1, "(");
    type("false");
    type_times(COUNT - 1, "Ufalse)");
    type("Ufalse");
}

static const struct row {
    const char *name;
    void (*make)(void);
    int prints; // its formula, and else its text is parsed
    uint32_t refusal;
} rows[] = {
    {"parse: G(!p0|!p1Up2)", workshop_rule, 0, 0},
    {"parse: 1,024 nodes with spaces", large_rule, 0, 0},
    {"parse: and-chain of 512 words", and_chain, 0, 0},
    {"parse: left-leaning until-chain of 512 words", left_leaning_chain, 0, 0},
    {"parse: a million brackets around p0", million_brackets, 0, 0},
    {"parse: and-chain of 250,000 words, refused", far_too_long_chain, 0, 3},
    {"parse: 1,024 nodes, refused at the end", large_rule_with_a_bracket_too_many, 0, 16},
    {"print: G(!p0|!p1Up2)", workshop_rule, 1, 0},
    {"print: 1,024 nodes", large_rule, 1, 0},
    {"print: and-chain of 512 words", and_chain, 1, 0},
    {"print: left-leaning until-chain of 512 words", left_leaning_chain, 1, 0},
};

// What a call answered and what it was lent.
struct outcome {
    uint32_t number;
    uint64_t values[3];
    uint8_t bytes[MOST_PRINT];
};

static void call(const struct side *side, const struct row *row, struct outcome *out)
{
    uint64_t *values = out->values;
    if (row->prints)
        out->number = side->print(rule.bytes, rule.count, out->bytes, MOST_PRINT, &values[0]);
    else
        out->number = side->parse(text.bytes, text.count, out->bytes, MOST_RULE, &values[0], &values[1], &values[2]);
}

static void make(const struct row *row)
{
    uint64_t nodes, line, byte;
    text.count = rule.count = 0;
    row->make();
    if (row->prints && plain_parse(text.bytes, text.count, rule.bytes, MOST_RULE, &nodes, &line, &byte) == 0)
        rule.count = nodes;
}

// A pattern fills the outcome, so that what neither side may write stays equal.
static int agree(const struct row *row, struct outcome *ours)
{
    static struct outcome theirs;
    memset(ours, 0x5a, sizeof *ours);
    memset(&theirs, 0x5a, sizeof theirs);
    call(&library, row, ours);
    call(&plain, row, &theirs);
    return theirs.number == row->refusal && memcmp(ours, &theirs, sizeof theirs) == 0;
}

// Nanoseconds for so many calls.
static double timed(const struct side *side, const struct row *row, struct outcome *out, long turns)
{
    double begin = now();
    for (long i = 0; i < turns; i++)
        call(side, row, out);
    return now() - begin;
}

// How often a side is called in one round.
static long turns_of(const struct side *side, const struct row *row, struct outcome *out)
{
    long turns = 1;
    while (timed(side, row, out, turns) < ROUND)
        turns *= 2;
    return turns;
}

static void time_row(const struct row *row, struct outcome *out)
{
    long our_turns = turns_of(&library, row, out), their_turns = turns_of(&plain, row, out);
    double ours = timed(&library, row, out, our_turns), theirs = timed(&plain, row, out, their_turns);
    for (int i = 1; i < ROUNDS; i++) {
        ours = least(ours, timed(&library, row, out, our_turns));
        theirs = least(theirs, timed(&plain, row, out, their_turns));
    }
    ours /= (double)our_turns;
    theirs /= (double)their_turns;
    double bytes = (double)(row->prints ? out->values[0] : text.count); // a thousand times as many a nanosecond are megabytes a second
    printf("%-52s %10.0f %10.0f %7.2f\n", row->name, 1e3 * bytes / ours, 1e3 * bytes / theirs, ours / theirs);
    fflush(stdout);
}

int time_texts(void)
{
    static struct outcome out;
    printf("\n%-52s %10s %10s %7s\n", "texts, in megabytes a second", "library", "plain C", "ratio");
    for (size_t i = 0; i < sizeof rows / sizeof *rows; i++) {
        make(&rows[i]);
        if (!agree(&rows[i], &out)) {
            printf("%s: the sides differ, or one is not as it should be\n", rows[i].name);
            return 1;
        }
        time_row(&rows[i], &out);
    }
    return 0;
}
