// Report and add. Report is one pass over the runs, into a table of rows on the stack, which are written where all runs were good.
// Add is one pass that adds up the runs and looks whether the rows agree, and one that adds the rows.

#include "../plain.h"
#include "parts.h"

enum { RULES = 256, MOST_RUNS = 65536, RUN_BYTES = 12, ROW_BYTES = 32, REPORT_BYTES = RULES * ROW_BYTES };

struct row {
    uint32_t runs, came_to[3]; // by verdict
    uint32_t earliest, latest; // ticks of false
    uint64_t sum;              // of all of these
};

static inline struct row get_row(const uint8_t *b)
{
    return (struct row){(uint32_t)get32(b),
                        {(uint32_t)get32(b + 4), (uint32_t)get32(b + 8), (uint32_t)get32(b + 12)},
                        (uint32_t)get32(b + 16),
                        (uint32_t)get32(b + 20),
                        get64(b + 24)};
}

// A number as it is, where the machine has its lowest byte first too: of a row that is put byte by byte gcc does not make one store
// for each number.
static inline void store32(uint8_t *b, uint32_t number)
{
#if __BYTE_ORDER__ == __ORDER_LITTLE_ENDIAN__
    __builtin_memcpy(b, &number, sizeof number);
#else
    put32(b, number);
#endif
}

static inline void store64(uint8_t *b, uint64_t number)
{
#if __BYTE_ORDER__ == __ORDER_LITTLE_ENDIAN__
    __builtin_memcpy(b, &number, sizeof number);
#else
    put64(b, number);
#endif
}

static inline void put_row(uint8_t *b, struct row row)
{
    store32(b, row.runs);
    store32(b + 4, row.came_to[FALSE]);
    store32(b + 8, row.came_to[TRUE]);
    store32(b + 12, row.came_to[PENDING]);
    store32(b + 16, row.earliest);
    store32(b + 20, row.latest);
    store64(b + 24, row.sum);
}

static inline uint32_t lower(uint32_t a, uint32_t b)
{
    return a < b ? a : b;
}

static inline uint32_t higher(uint32_t a, uint32_t b)
{
    return a > b ? a : b;
}

// Until there is a false the earliest tick is the highest that there is. No branch goes by the verdict, which a processor cannot
// foresee: a run that was not false has ticks that change nothing. The runs of all verdicts are added up in the end.
uint32_t plain_report(const uint8_t *runs, size_t runs_len, uint8_t *report, size_t report_len, uint64_t *place)
{
    if (runs_len % RUN_BYTES != 0 || runs_len / RUN_BYTES > MOST_RUNS || report_len != REPORT_BYTES)
        return LENGTH;
    struct row rows[RULES];
    for (size_t i = 0; i < RULES; i++)
        rows[i] = (struct row){.earliest = UINT32_MAX};
    for (const uint8_t *run = runs; run < runs + runs_len; run += RUN_BYTES) {
        size_t rule = get32(run), verdict = get32(run + 4);
        uint32_t tick = (uint32_t)get32(run + 8);
        if (rule >= RULES || verdict > PENDING) {
            *place = (uint64_t)(run - runs) / RUN_BYTES;
            return RUN;
        }
        uint32_t is_false = -(uint32_t)(verdict == FALSE), low = tick | ~is_false, high = tick & is_false;
        struct row *row = &rows[rule];
        row->came_to[verdict]++;
        row->sum += high;
        if (low < row->earliest)
            row->earliest = low;
        if (high > row->latest)
            row->latest = high;
    }
    for (size_t i = 0; i < RULES; i++) {
        struct row row = rows[i];
        row.runs = row.came_to[FALSE] + row.came_to[TRUE] + row.came_to[PENDING];
        if (row.came_to[FALSE] == 0)
            row.earliest = 0;
        put_row(report + ROW_BYTES * i, row);
    }
    return 0;
}

// Whether some runs have this row. Whatever its numbers are, 64 bits have room for what is worked out here.
static inline int agrees(struct row row)
{
    uint64_t falses = row.came_to[FALSE], earliest = row.earliest, latest = row.latest;
    if (row.runs != falses + row.came_to[TRUE] + row.came_to[PENDING])
        return 0;
    if (falses == 0)
        return (earliest | latest | row.sum) == 0;
    return earliest <= latest && latest + (falses - 1) * earliest <= row.sum && row.sum <= earliest + (falses - 1) * latest;
}

// Without a false latest and sum are 0, and do as they are.
static inline struct row added(struct row a, struct row b)
{
    uint32_t earliest = b.came_to[FALSE] == 0 ? a.earliest : a.came_to[FALSE] == 0 ? b.earliest : lower(a.earliest, b.earliest);
    return (struct row){a.runs + b.runs,
                        {a.came_to[0] + b.came_to[0], a.came_to[1] + b.came_to[1], a.came_to[2] + b.came_to[2]},
                        earliest,
                        higher(a.latest, b.latest),
                        a.sum + b.sum};
}

uint32_t plain_add(uint8_t *total, size_t total_len, const uint8_t *night, size_t night_len)
{
    if (total_len != REPORT_BYTES || night_len != REPORT_BYTES)
        return LENGTH;
    uint64_t runs = 0;
    int agree = 1;
    for (size_t i = 0; i < REPORT_BYTES; i += ROW_BYTES) {
        struct row a = get_row(total + i), b = get_row(night + i);
        runs += (uint64_t)a.runs + b.runs;
        agree = agree && agrees(a) && agrees(b);
    }
    if (runs > MOST_RUNS)
        return RANGE;
    if (!agree)
        return OFFSET;
    for (size_t i = 0; i < REPORT_BYTES; i += ROW_BYTES)
        put_row(total + i, added(get_row(total + i), get_row(night + i)));
    return 0;
}
