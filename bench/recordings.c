// Mend and stretch on recordings of 100,000 records without a hole, with few holes and with many, and on one of 12 records. Rounds of
// the two sides alternate and the best one counts. Before that both must give equal answers and equal bytes.

#include "recordings.h"
#include "clock.h"
#include "formulas.h"
#include "sides.h"

#include <stdio.h>
#include <string.h>

enum { MOST_RECORDS = 100000, FEW = 12, HEADER_BYTES = 16, RECORD_BYTES = 12, ROUNDS = 25 };
static const double ROUND = 1e6; // nanoseconds, at least

// What is mended and stretched, and the numbers of its last record.
static struct {
    uint8_t bytes[HEADER_BYTES + RECORD_BYTES * MOST_RECORDS];
    size_t count, counter, event;
} recording;

static void put_number(size_t at, size_t number, size_t bytes)
{
    for (size_t i = 0; i < bytes; i++)
        recording.bytes[at + i] = (uint8_t)(number >> 8 * i);
}

static size_t length(void)
{
    return HEADER_BYTES + RECORD_BYTES * recording.count;
}

// So many ticks after the last record; one that comes after none is that record again.
static void put_record(size_t step)
{
    recording.counter += step;
    if (step != 0)
        recording.event = below(SIZE_MAX);
    put_number(length(), recording.counter, 4);
    put_number(length() + 4, recording.event, 8);
    recording.count++;
}

static void without_hole(void)
{
    while (recording.count < MOST_RECORDS)
        put_record(1);
}

// A double, and a thousand records on a break, in turn.
static void few_holes(void)
{
    while (recording.count < MOST_RECORDS)
        put_record(recording.count % 2000 == 999 ? 0 : recording.count % 2000 == 1999 ? 17 : 1);
}

// A quarter of the records are doubles, and a quarter come after a break.
static void many_holes(void)
{
    while (recording.count < MOST_RECORDS) {
        const size_t steps[] = {0, 2 + below(1000), 1, 1};
        put_record(recording.count == 0 ? 1 : steps[below(4)]);
    }
}

static void few_records(void)
{
    while (recording.count < FEW)
        put_record(1);
}

// What a call answered and what it was lent.
struct outcome {
    uint32_t number;
    uint64_t kept, first;
    uint8_t mended[sizeof recording.bytes], marks[MOST_RECORDS];
    uint64_t events[MOST_RECORDS];
};

static void mend(const struct side *side, struct outcome *out)
{
    out->number = side->mend(recording.bytes, length(), out->mended, length(), out->marks, recording.count, &out->kept, &out->first);
}

static void stretch(const struct side *side, struct outcome *out)
{
    out->number = side->stretch(recording.bytes, length(), out->events, recording.count, &out->first);
}

static const struct row {
    const char *name;
    void (*make)(void);
    void (*call)(const struct side *, struct outcome *);
} rows[] = {
    {"mend: 100,000 records without a hole", without_hole, mend},
    {"mend: 100,000 records, a hole each thousand", few_holes, mend},
    {"mend: 100,000 records, half of them at holes", many_holes, mend},
    {"mend: 12 records", few_records, mend},
    {"stretch: 100,000 records without a hole", without_hole, stretch},
    {"stretch: 100,000 records, a hole each thousand", few_holes, stretch},
    {"stretch: 100,000 records, half of them at holes", many_holes, stretch},
    {"stretch: 12 records", few_records, stretch},
};

static void make(const struct row *row)
{
    seed_random(1);
    memset(&recording, 0, sizeof recording);
    row->make();
    put_number(0, recording.count, 4);
    put_number(4, HEADER_BYTES, 4);
    put_number(8, length(), 4);
}

// A pattern fills the outcome, so that what neither side may write stays equal.
static int agree(const struct row *row, struct outcome *ours)
{
    static struct outcome theirs;
    memset(ours, 0x5a, sizeof *ours);
    memset(&theirs, 0x5a, sizeof theirs);
    row->call(&library, ours);
    row->call(&plain, &theirs);
    return theirs.number == 0 && memcmp(ours, &theirs, sizeof theirs) == 0;
}

// Nanoseconds for so many calls.
static double timed(const struct side *side, const struct row *row, struct outcome *out, long turns)
{
    double begin = now();
    for (long i = 0; i < turns; i++)
        row->call(side, out);
    return now() - begin;
}

// How often a side is called in one round.
static long turns_of(const struct side *side, const struct row *row, struct outcome *out)
{
    long turns = 1;
    while (timed(side, row, out, turns) < ROUND)
        turns *= 2;
    return turns;
}

// A line ends with what a record takes and how many megabytes of recordings go through in a second: a thousand times as many as
// bytes in a nanosecond.
static void print_times(const struct row *row, double ours, double theirs)
{
    double count = (double)recording.count, bytes = (double)length();
    printf("%-52s %10.0f %10.0f %7.2f   %.2f and %.2f ns a record, %.0f and %.0f megabytes a second\n", row->name, ours, theirs,
           ours / theirs, ours / count, theirs / count, 1e3 * bytes / ours, 1e3 * bytes / theirs);
    fflush(stdout);
}

static void time_row(const struct row *row, struct outcome *out)
{
    long our_turns = turns_of(&library, row, out), their_turns = turns_of(&plain, row, out);
    double ours = timed(&library, row, out, our_turns), theirs = timed(&plain, row, out, their_turns);
    for (int i = 1; i < ROUNDS; i++) {
        ours = least(ours, timed(&library, row, out, our_turns));
        theirs = least(theirs, timed(&plain, row, out, their_turns));
    }
    print_times(row, ours / (double)our_turns, theirs / (double)their_turns);
}

int time_recordings(void)
{
    static struct outcome out;
    printf("\n%-52s %10s %10s %7s\n", "recordings", "library ns", "plain C ns", "ratio");
    for (size_t i = 0; i < sizeof rows / sizeof *rows; i++) {
        make(&rows[i]);
        if (!agree(&rows[i], &out)) {
            printf("%s: the sides differ, or one is not as it should be\n", rows[i].name);
            return 1;
        }
        time_row(&rows[i], &out);
    }
    return 0;
}
