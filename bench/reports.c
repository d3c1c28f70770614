// Report on as many runs as a list may have, and on few, and add on two reports with runs of every rule and verdict. Rounds of the
// two sides alternate and the best one counts. Before that both must give equal answers and equal bytes.

#include "reports.h"
#include "clock.h"
#include "formulas.h"
#include "plain.h"
#include "sides.h"

#include <stdio.h>
#include <string.h>

enum { RULES = 256, MOST_RUNS = 65536, RUN_BYTES = 12, REPORT_BYTES = 8192, FEW = 12, ROUNDS = 25 };
enum { WAS_FALSE, WAS_TRUE, WAS_PENDING, VERDICTS };
static const double ROUND = 1e6; // nanoseconds, at least

// An accepted add changes the total, and by and by there would be too many runs: it is put back after so many.
enum { ADDS = 64 };

// What is counted, and what is added.
static struct {
    uint8_t bytes[MOST_RUNS * RUN_BYTES];
    size_t count;
} runs;
static uint8_t before[REPORT_BYTES], night[REPORT_BYTES];

static void put_run(size_t rule, size_t verdict)
{
    const size_t numbers[] = {rule, verdict, below(1000000)};
    for (size_t i = 0; i < RUN_BYTES; i++)
        runs.bytes[runs.count * RUN_BYTES + i] = (uint8_t)(numbers[i / 4] >> i % 4 * 8);
    runs.count++;
}

static void put_random_run(void)
{
    size_t rule = below(RULES);
    put_run(rule, below(VERDICTS));
}

static void random_runs(void)
{
    while (runs.count < MOST_RUNS)
        put_random_run();
}

static void one_rule_and_false(void)
{
    while (runs.count < MOST_RUNS)
        put_run(17, WAS_FALSE);
}

static void all_true(void)
{
    while (runs.count < MOST_RUNS)
        put_run(below(RULES), WAS_TRUE);
}

static void few_runs(void)
{
    while (runs.count < FEW)
        put_random_run();
}

static void last_has_no_verdict(void)
{
    random_runs();
    runs.count--;
    put_run(below(RULES), VERDICTS);
}

// The report of one run for each rule and verdict.
static void make_full(uint8_t *report)
{
    uint64_t place;
    for (runs.count = 0; runs.count < RULES * VERDICTS;)
        put_run(runs.count / VERDICTS, runs.count % VERDICTS);
    plain_report(runs.bytes, runs.count * RUN_BYTES, report, REPORT_BYTES, &place);
}

static void two_full_reports(void)
{
    make_full(before);
    make_full(night);
}

static const struct row {
    const char *name;
    void (*make)(void);
    int adds; // its reports, and else its runs are counted
    uint32_t refusal;
} rows[] = {
    {"report: 65,536 random runs", random_runs, 0, 0},
    {"report: 65,536 runs of one rule, all false", one_rule_and_false, 0, 0},
    {"report: 65,536 runs, all true", all_true, 0, 0},
    {"report: 12 random runs", few_runs, 0, 0},
    {"report: 65,536 random runs, refused at the last", last_has_no_verdict, 0, 19},
    {"add: two full reports", two_full_reports, 1, 0},
};

// What a call answered and what it was lent.
struct outcome {
    uint32_t number;
    uint64_t place;
    uint8_t bytes[REPORT_BYTES];
};

static void call(const struct side *side, const struct row *row, struct outcome *out)
{
    if (!row->adds) {
        out->number = side->report(runs.bytes, runs.count * RUN_BYTES, out->bytes, REPORT_BYTES, &out->place);
        return;
    }
    memcpy(out->bytes, before, REPORT_BYTES);
    out->number = 0;
    for (int i = 0; i < ADDS && out->number == 0; i++)
        out->number = side->add(out->bytes, REPORT_BYTES, night, REPORT_BYTES);
}

static void make(const struct row *row)
{
    seed_random(1);
    runs.count = 0;
    row->make();
}

// A pattern fills the outcome, so that what neither side may write stays equal.
static int agree(const struct row *row, struct outcome *ours)
{
    static struct outcome theirs;
    memset(ours, 0x5a, sizeof *ours);
    memset(&theirs, 0x5a, sizeof theirs);
    call(&library, row, ours);
    call(&plain, row, &theirs);
    return theirs.number == row->refusal && memcmp(ours, &theirs, sizeof theirs) == 0;
}

// Nanoseconds for so many calls.
static double timed(const struct side *side, const struct row *row, struct outcome *out, long turns)
{
    double begin = now();
    for (long i = 0; i < turns; i++)
        call(side, row, out);
    return now() - begin;
}

// How often a side is called in one round.
static long turns_of(const struct side *side, const struct row *row, struct outcome *out)
{
    long turns = 1;
    while (timed(side, row, out, turns) < ROUND)
        turns *= 2;
    return turns;
}

// A line ends with what a run takes and how many megabytes of runs, or of reports that are added, go through in a second: a
// thousand times as many as bytes in a nanosecond.
static void print_times(const struct row *row, double ours, double theirs)
{
    double count = (double)runs.count, bytes = row->adds ? 2 * REPORT_BYTES : RUN_BYTES * count;
    printf("%-52s %10.0f %10.0f %7.2f  ", row->name, ours, theirs, ours / theirs);
    if (!row->adds)
        printf(" %.2f and %.2f ns a run,", ours / count, theirs / count);
    printf(" %.0f and %.0f megabytes a second\n", 1e3 * bytes / ours, 1e3 * bytes / theirs);
    fflush(stdout);
}

static void time_row(const struct row *row, struct outcome *out)
{
    long our_turns = turns_of(&library, row, out), their_turns = turns_of(&plain, row, out);
    double ours = timed(&library, row, out, our_turns), theirs = timed(&plain, row, out, their_turns);
    for (int i = 1; i < ROUNDS; i++) {
        ours = least(ours, timed(&library, row, out, our_turns));
        theirs = least(theirs, timed(&plain, row, out, their_turns));
    }
    double calls = row->adds ? ADDS : 1;
    print_times(row, ours / (double)our_turns / calls, theirs / (double)their_turns / calls);
}

int time_reports(void)
{
    static struct outcome out;
    printf("\n%-52s %10s %10s %7s\n", "runs and reports", "library ns", "plain C ns", "ratio");
    for (size_t i = 0; i < sizeof rows / sizeof *rows; i++) {
        make(&rows[i]);
        if (!agree(&rows[i], &out)) {
            printf("%s: the sides differ, or one is not as it should be\n", rows[i].name);
            return 1;
        }
        time_row(&rows[i], &out);
    }
    return 0;
}
