// The plain C version behind the protocol of tests/PROTOCOL.md, so that the generator's requests check it too.

#include "plain.h"

#include <inttypes.h>
#include <stdio.h>
#include <string.h>

enum { READ = 1, WRITE, CENTRAL, LOAD, SAMPLE, STEP, CLOSE, ASK, POKE, CAPTURE, PARSE, PRINT, REPORT, ADD, MEND, STRETCH };
enum { NO_TEXT = 16, NO_RUN = 19 }; // the refusals with a place
enum { MOST_FILE = 4096, MOST_MASKS = 32, MOST_EVENTS = 256, MOST_LENT_EVENTS = 1024, MOST_BYTES = 8192, MOST_RUN_BYTES = 786456 };

struct request {
    uint32_t call, a, b, c;
    uint64_t v;
};

static uint8_t given[MOST_BYTES], lent[MOST_BYTES], marks[MOST_BYTES], kept[MOST_BYTES], runs[MOST_RUN_BYTES];
static uint64_t masks[MOST_MASKS], events[MOST_LENT_EVENTS];

static uint64_t little_endian(const uint8_t *bytes, int count)
{
    uint64_t value = 0;
    while (count-- > 0)
        value = value << 8 | bytes[count];
    return value;
}

static void fill_bytes(uint8_t *bytes, uint32_t count)
{
    for (uint32_t i = 0; i < count; i++)
        bytes[i] = (uint8_t)(i % 251 + 1);
}

static void fill_numbers(uint64_t *numbers, uint32_t count)
{
    for (uint32_t i = 0; i < count; i++)
        numbers[i] = (i + 1) * UINT64_C(72340172838076673);
}

static uint64_t hashed(uint64_t hash, uint8_t byte)
{
    return (hash * 257 + byte + 1) % UINT64_C(4294967291);
}

static void print_bytes(const uint8_t *bytes, uint32_t count)
{
    uint64_t hash = 1;
    for (uint32_t i = 0; i < count; i++)
        hash = hashed(hash, bytes[i]);
    printf(" %" PRIu64, hash);
}

static void print_numbers(const uint64_t *numbers, uint32_t count)
{
    uint64_t hash = 1;
    for (uint32_t i = 0; i < 8 * count; i++)
        hash = hashed(hash, (uint8_t)(numbers[i / 8] >> i % 8 * 8));
    printf(" %" PRIu64, hash);
}

static int take(void *bytes, size_t count)
{
    return fread(bytes, 1, count, stdin) == count;
}

static int take_numbers(uint64_t *numbers, size_t count)
{
    uint8_t number[8];
    for (size_t i = 0; i < count; i++) {
        if (!take(number, 8))
            return 0;
        numbers[i] = little_endian(number, 8);
    }
    return 1;
}

static int answer_read(struct request r)
{
    uint64_t boards, propositions, nodes;
    if (r.a > MOST_FILE || r.b > MOST_MASKS || r.c > MOST_BYTES || !take(given, r.a))
        return 0;
    fill_numbers(masks, r.b);
    fill_bytes(lent, r.c);
    uint32_t number = plain_read(given, r.a, masks, r.b, lent, r.c, &boards, &propositions, &nodes);
    printf("%" PRIu32, number);
    if (number == 0)
        printf(" %" PRIu64 " %" PRIu64 " %" PRIu64, boards, propositions, nodes);
    print_numbers(masks, r.b);
    print_bytes(lent, r.c);
    return 1;
}

static int answer_write(struct request r)
{
    uint64_t length;
    if (r.a > MOST_MASKS || r.b > MOST_BYTES || r.c > MOST_BYTES || !take_numbers(masks, r.a) || !take(given, r.b))
        return 0;
    fill_bytes(lent, r.c);
    uint32_t number = plain_write(masks, r.a, r.v, given, r.b, lent, r.c, &length);
    printf("%" PRIu32, number);
    if (number == 0)
        printf(" %" PRIu64, length);
    print_bytes(lent, r.c);
    return 1;
}

static int answer_central(struct request r)
{
    uint32_t verdict;
    uint64_t length;
    if (r.a > MOST_BYTES || r.c > MOST_BYTES || !take(given, r.a))
        return 0;
    fill_bytes(lent, r.c);
    uint32_t number = plain_central(given, r.a, r.v, lent, r.c, &verdict, &length);
    printf("%" PRIu32, number);
    if (number == 0)
        printf(" %" PRIu32 " %" PRIu64, verdict, length);
    print_bytes(lent, r.c);
    return 1;
}

// What an accepted load, close or report left becomes the kept state.
static void keep(uint32_t number, uint32_t count)
{
    if (number == 0)
        memcpy(kept, lent, count);
}

static int answer_load(struct request r)
{
    if (r.a > MOST_FILE || r.c > MOST_BYTES || !take(given, r.a))
        return 0;
    fill_bytes(lent, r.c);
    uint32_t number = plain_load(given, r.a, lent, r.c);
    printf("%" PRIu32, number);
    print_bytes(lent, r.c);
    keep(number, r.c);
    return 1;
}

static int answer_sample(struct request r)
{
    uint8_t board[8];
    if (r.b > MOST_BYTES || !take(board, 8))
        return 0;
    printf("%" PRIu32, plain_sample(kept, r.b, little_endian(board, 8), r.v));
    print_bytes(kept, r.b);
    return 1;
}

static int answer_step(struct request r)
{
    if (r.b > MOST_BYTES)
        return 0;
    printf("%" PRIu32, plain_step(kept, r.b, r.v));
    print_bytes(kept, r.b);
    return 1;
}

static int answer_close(struct request r)
{
    if (r.b > MOST_BYTES || r.c > MOST_BYTES)
        return 0;
    fill_bytes(lent, r.c);
    uint32_t number = plain_close(kept, r.b, lent, r.c);
    printf("%" PRIu32, number);
    print_bytes(kept, r.b);
    print_bytes(lent, r.c);
    keep(number, r.c);
    return 1;
}

static int answer_ask(struct request r)
{
    uint32_t verdict, ticks;
    uint64_t slots, nodes;
    if (r.b > MOST_BYTES)
        return 0;
    uint32_t number = plain_ask(kept, r.b, &verdict, &ticks, &slots, &nodes);
    printf("%" PRIu32, number);
    if (number == 0)
        printf(" %" PRIu32 " %" PRIu32 " %" PRIu64 " %" PRIu64, verdict, ticks, slots, nodes);
    print_bytes(kept, r.b);
    return 1;
}

static int answer_poke(struct request r)
{
    if (r.b > MOST_BYTES || r.a > MOST_BYTES - r.b || !take(kept + r.b, r.a))
        return 0;
    printf("0");
    return 1;
}

static int answer_capture(struct request r)
{
    uint64_t closed;
    uint32_t verdict, stop;
    if (r.a > MOST_EVENTS || r.b > MOST_BYTES || r.c > MOST_BYTES || !take_numbers(events, r.a))
        return 0;
    fill_bytes(lent, r.c);
    uint32_t number = plain_capture(kept, r.b, lent, r.c, events, r.a, &closed, &verdict, &stop);
    printf("%" PRIu32, number);
    if (number == 0)
        printf(" %" PRIu64 " %" PRIu32 " %" PRIu32, closed, verdict, stop);
    print_bytes(kept, r.b);
    print_bytes(lent, r.c);
    return 1;
}

static int answer_parse(struct request r)
{
    uint64_t nodes, line, byte;
    if (r.a > MOST_BYTES || r.c > MOST_BYTES || !take(given, r.a))
        return 0;
    fill_bytes(lent, r.c);
    uint32_t number = plain_parse(given, r.a, lent, r.c, &nodes, &line, &byte);
    printf("%" PRIu32, number);
    if (number == 0)
        printf(" %" PRIu64, nodes);
    else if (number == NO_TEXT)
        printf(" %" PRIu64 " %" PRIu64, line, byte);
    print_bytes(lent, r.c);
    return 1;
}

static int answer_print(struct request r)
{
    uint64_t length;
    if (r.a > MOST_BYTES || r.c > MOST_BYTES || !take(given, r.a))
        return 0;
    fill_bytes(lent, r.c);
    uint32_t number = plain_print(given, r.a, lent, r.c, &length);
    printf("%" PRIu32, number);
    if (number == 0)
        printf(" %" PRIu64, length);
    print_bytes(lent, r.c);
    return 1;
}

// The call is given the payload so many times over.
static int answer_report(struct request r)
{
    uint64_t length = (uint64_t)r.a * r.b, place;
    if (r.a > MOST_BYTES || length > MOST_RUN_BYTES || r.c > MOST_BYTES || !take(given, r.a))
        return 0;
    for (size_t i = 0; i < length; i += r.a)
        memcpy(runs + i, given, r.a);
    fill_bytes(lent, r.c);
    uint32_t number = plain_report(runs, length, lent, r.c, &place);
    printf("%" PRIu32, number);
    if (number == NO_RUN)
        printf(" %" PRIu64, place);
    print_bytes(lent, r.c);
    keep(number, r.c);
    return 1;
}

static int answer_add(struct request r)
{
    if (r.a > MOST_BYTES || r.b > MOST_BYTES || !take(given, r.a))
        return 0;
    printf("%" PRIu32, plain_add(kept, r.b, given, r.a));
    print_bytes(kept, r.b);
    return 1;
}

static int answer_mend(struct request r)
{
    uint64_t records, first;
    if (r.a > MOST_BYTES || r.b > MOST_BYTES || r.c > MOST_BYTES || !take(given, r.a))
        return 0;
    fill_bytes(lent, r.b);
    fill_bytes(marks, r.c);
    uint32_t number = plain_mend(given, r.a, lent, r.b, marks, r.c, &records, &first);
    printf("%" PRIu32, number);
    if (number == 0)
        printf(" %" PRIu64 " %" PRIu64, records, first);
    print_bytes(lent, r.b);
    print_bytes(marks, r.c);
    return 1;
}

static int answer_stretch(struct request r)
{
    uint64_t first;
    if (r.a > MOST_BYTES || r.c > MOST_LENT_EVENTS || !take(given, r.a))
        return 0;
    fill_numbers(events, r.c);
    uint32_t number = plain_stretch(given, r.a, events, r.c, &first);
    printf("%" PRIu32, number);
    if (number == 0)
        printf(" %" PRIu64, first);
    print_numbers(events, r.c);
    return 1;
}

static int answer(const uint8_t *header)
{
    struct request r = {(uint32_t)little_endian(header, 4), (uint32_t)little_endian(header + 4, 4),
                        (uint32_t)little_endian(header + 8, 4), (uint32_t)little_endian(header + 12, 4), little_endian(header + 16, 8)};
    switch (r.call) {
    case READ:
        return answer_read(r);
    case WRITE:
        return answer_write(r);
    case CENTRAL:
        return answer_central(r);
    case LOAD:
        return answer_load(r);
    case SAMPLE:
        return answer_sample(r);
    case STEP:
        return answer_step(r);
    case CLOSE:
        return answer_close(r);
    case ASK:
        return answer_ask(r);
    case POKE:
        return answer_poke(r);
    case CAPTURE:
        return answer_capture(r);
    case PARSE:
        return answer_parse(r);
    case PRINT:
        return answer_print(r);
    case REPORT:
        return answer_report(r);
    case ADD:
        return answer_add(r);
    case MEND:
        return answer_mend(r);
    case STRETCH:
        return answer_stretch(r);
    default:
        return 0;
    }
}

int main(void)
{
    uint8_t header[24];
    size_t got;
    while ((got = fread(header, 1, sizeof header, stdin)) != 0) {
        if (got != sizeof header || !answer(header)) {
            puts("bad request");
            return 0;
        }
        putchar('\n');
    }
    return 0;
}
