// How much stack the calls take; the script `stack` builds and runs this. With SEED and COUNT it makes each call with inputs that
// are nested deep, or, where nothing is nested, as long as they may be, and with COUNT by chance, and prints the most bytes that a
// call took below the frame of the function that made it. With `limits` it makes the calls on threads that have as much stack as
// the header names for the call, and no more: a call that takes more ends the program by a signal, and its name is the last that
// was printed. So that this shows something, a call that goes deep must use most of that stack.

#define _GNU_SOURCE
#include "deep.h"

#include <inttypes.h>
#include <pthread.h>
#include <stdio.h>
#include <stdlib.h>
#include <string.h>
#include <sys/mman.h>

// What the calls are given. A call that writes the state is given `second`, so that `state` stays for the next one; capture's own
// second buffer is `third`. Add is given what report has written, as the report that it adds.
enum { EVENTS = 4 };
static struct formula formula;
static uint64_t event, slot, events[EVENTS];
static size_t file_length;
static uint8_t file[VYDRULKA_FILE_MOST];
static uint8_t state[VYDRULKA_STATE_LENGTH], second[VYDRULKA_STATE_LENGTH], third[VYDRULKA_STATE_LENGTH];
static const uint8_t *text;
static size_t text_length;
static uint8_t printed[VYDRULKA_TEXT_LENGTH], bracketed[BRACKETED_LENGTH];
static size_t run_count;
static uint8_t runs[VYDRULKA_RUNS_MOST * VYDRULKA_RUN_LENGTH];
static uint8_t report[VYDRULKA_REPORT_LENGTH], total[VYDRULKA_REPORT_LENGTH];
enum { RECORDS = 65536 };
static uint8_t recording[VYDRULKA_RECORDS_AT + VYDRULKA_RECORD_LENGTH * RECORDS];

// What the other outputs are; nobody looks at them.
static uint64_t read_masks[VYDRULKA_BOARDS_MOST], numbers[3];
static uint32_t words[2], answer;
static uint8_t output[VYDRULKA_NODES_MOST], written[VYDRULKA_FILE_MOST], read_formula[VYDRULKA_RULE_NODES_MOST];
static uint8_t mended[sizeof recording], marks[RECORDS];
static uint64_t stretched[RECORDS];

static void make_read(void)
{
    answer = vydrulka_read(file, file_length, read_masks, VYDRULKA_BOARDS_MOST, read_formula, sizeof read_formula, &numbers[0],
                           &numbers[1], &numbers[2]);
}

static void make_write(void)
{
    answer = vydrulka_write(masks, 2, 2, formula.bytes, formula.nodes, written, sizeof written, &numbers[0]);
}

static void make_central(void)
{
    answer = vydrulka_central(formula.bytes, formula.nodes, event, output, sizeof output, &words[0], &numbers[0]);
}

static void make_load(void)
{
    answer = vydrulka_load(file, file_length, second, sizeof second);
}

static void make_sample(void)
{
    answer = vydrulka_sample(second, sizeof second, slot % 2, event & masks[slot % 2]);
}

static void make_step(void)
{
    answer = vydrulka_step(second, sizeof second, slot);
}

static void make_close(void)
{
    answer = vydrulka_close(state, sizeof state, second, sizeof second);
}

static void make_ask(void)
{
    answer = vydrulka_ask(state, sizeof state, &words[0], &words[1], &numbers[0], &numbers[1]);
}

static void make_capture(void)
{
    answer = vydrulka_capture(second, sizeof second, third, sizeof third, events, EVENTS, &numbers[0], &words[0], &words[1]);
}

static void make_parse(void)
{
    answer = vydrulka_parse(text, text_length, read_formula, sizeof read_formula, &numbers[0], &numbers[1], &numbers[2]);
}

static void make_print(void)
{
    answer = vydrulka_print(formula.bytes, formula.nodes, printed, sizeof printed, &numbers[0]);
}

static void make_report(void)
{
    answer = vydrulka_report(runs, run_count * VYDRULKA_RUN_LENGTH, report, sizeof report, &numbers[0]);
}

static void make_add(void)
{
    answer = vydrulka_add(total, sizeof total, report, sizeof report);
}

static void make_mend(void)
{
    answer = vydrulka_mend(recording, sizeof recording, mended, sizeof mended, marks, RECORDS, &numbers[0], &numbers[1]);
}

static void make_stretch(void)
{
    answer = vydrulka_stretch(recording, sizeof recording, stretched, RECORDS, &numbers[0]);
}

enum call { READ, WRITE, CENTRAL, LOAD, SAMPLE, STEP, CLOSE, ASK, CAPTURE, PARSE, PRINT, REPORT, ADD, MEND, STRETCH, CALLS };

static const struct {
    const char *name;
    void (*make)(void);
    size_t promised;
} calls[CALLS] = {
    [READ] = {"read", make_read, VYDRULKA_STACK_READ},
    [WRITE] = {"write", make_write, VYDRULKA_STACK_WRITE},
    [CENTRAL] = {"central", make_central, VYDRULKA_STACK_CENTRAL},
    [LOAD] = {"load", make_load, VYDRULKA_STACK_LOAD},
    [SAMPLE] = {"sample", make_sample, VYDRULKA_STACK_SAMPLE},
    [STEP] = {"step", make_step, VYDRULKA_STACK_STEP},
    [CLOSE] = {"close", make_close, VYDRULKA_STACK_CLOSE},
    [ASK] = {"ask", make_ask, VYDRULKA_STACK_ASK},
    [CAPTURE] = {"capture", make_capture, VYDRULKA_STACK_CAPTURE},
    [PARSE] = {"parse", make_parse, VYDRULKA_STACK_PARSE},
    [PRINT] = {"print", make_print, VYDRULKA_STACK_PRINT},
    [REPORT] = {"report", make_report, VYDRULKA_STACK_REPORT},
    [ADD] = {"add", make_add, VYDRULKA_STACK_ADD},
    [MEND] = {"mend", make_mend, VYDRULKA_STACK_MEND},
    [STRETCH] = {"stretch", make_stretch, VYDRULKA_STACK_STRETCH},
};

// What is done with a call: it is measured, or made on a small stack.
static void (*take)(enum call);

// What the input is, in words.
static char shape[200];

static void must(int holds, const char *what)
{
    if (holds)
        return;
    fprintf(stderr, "stack: %s failed\n", what);
    exit(2);
}

// Measuring. The stack below the caller is painted; a call went as deep as the lowest word that is no longer paint.

enum { PAINTED = 12 << 20, WORDS = PAINTED / 8 };
enum { GAP = 1 << 14 }; // words: more than any frame leaves untouched
static const uint64_t paint = 0x7cd1a9e358b6f402;

// Paints what is not paint below here, and says how many words down the last of it was. It stops at a gap of so many words of
// paint. It is always inlined, because a frame of its own would lie where it paints.
static inline __attribute__((always_inline)) size_t repaint(volatile uint64_t *here, size_t gap)
{
    size_t deepest = 0;
    for (size_t i = 1; i <= WORDS && i <= deepest + gap; i++)
        if (here[-(ptrdiff_t)i] != paint) {
            here[-(ptrdiff_t)i] = paint;
            deepest = i;
        }
    return deepest;
}

static inline __attribute__((always_inline)) volatile uint64_t *stack_pointer(void)
{
    volatile uint64_t *here;
    __asm__ volatile("mov %%rsp, %0" : "=r"(here));
    return here;
}

// The bytes of stack that the call takes. Nothing else runs between the two paintings.
static __attribute__((noinline)) size_t depth_of(void (*make)(void))
{
    volatile uint64_t *here = stack_pointer();
    repaint(here, GAP);
    make();
    return 8 * repaint(here, GAP);
}

// Paints all, and says how many bytes down something was not paint.
static __attribute__((noinline)) size_t paint_all(void)
{
    return 8 * repaint(stack_pointer(), WORDS);
}

static struct {
    size_t depth, inputs, accepted;
    uint32_t answer;
    char shape[sizeof shape];
} found[CALLS];

static void count_input(enum call call)
{
    found[call].inputs++;
    found[call].accepted += answer == VYDRULKA_ACCEPTED;
}

static void measure(enum call call)
{
    size_t depth = depth_of(calls[call].make);
    count_input(call);
    if (depth <= found[call].depth)
        return;
    found[call].depth = depth;
    found[call].answer = answer;
    strcpy(found[call].shape, shape);
}

// Limits. A call is made on a thread whose stack has forbidden pages below it. The memory is not left to the C library, which
// hands out larger stacks that it has kept.

enum { FORBIDDEN = 1 << 20 };
enum { SMALL = 32 << 10 }; // of a stack this small a thread needs a part for itself, and no call follows a formula down
static enum call limited;
static pthread_attr_t attributes;

static void *make_limited(void *none)
{
    calls[limited].make();
    return none;
}

static void limit(enum call call)
{
    pthread_t thread;
    if (call != limited)
        return;
    must(pthread_create(&thread, &attributes, make_limited, NULL) == 0, "pthread_create");
    must(pthread_join(thread, NULL) == 0, "pthread_join");
    count_input(call);
}

// Inputs. A formula goes to the calls as it is, in a rule file, as its text, and in states.

static void take_central(void)
{
    for (event = 0; event < 4; event++)
        take(CENTRAL);
}

static void take_file(void)
{
    file_length = file_of(file, &formula);
    take(READ);
    take(WRITE);
    take(LOAD);
}

static void take_text(void)
{
    take(PRINT);
    make_print();
    text = printed;
    text_length = numbers[0];
    take(PARSE);
}

// A text far longer than any print, whole and without its last bracket.
static void take_brackets(void)
{
    put_bracketed(bracketed);
    text = bracketed;
    for (size_t missing = 0; missing < 2; missing++) {
        text_length = BRACKETED_LENGTH - missing;
        snprintf(shape, sizeof shape, "a text of %zu bytes", text_length);
        take(PARSE);
    }
}

// Runs of every rule, with every verdict. Their numbers are small, so that only the lowest byte of each is not 0.
static void put_runs(size_t count)
{
    memset(runs, 0, sizeof runs);
    for (size_t i = 0; i < count; i++) {
        uint8_t *run = runs + VYDRULKA_RUN_LENGTH * i;
        run[0] = (uint8_t)i;
        run[4] = i % 3;
        run[8] = (uint8_t)(i >> 8);
    }
    run_count = count;
}

// As many as a list may have, and the same with a last one that has no verdict.
static void take_runs(void)
{
    put_runs(VYDRULKA_RUNS_MOST);
    snprintf(shape, sizeof shape, "%zu runs", run_count);
    take(REPORT);
    runs[sizeof runs - VYDRULKA_RUN_LENGTH + 4] = 3;
    snprintf(shape, sizeof shape, "%zu runs, and the last has no verdict", run_count);
    take(REPORT);
}

// Two reports that have as many runs together as there may be, and the same where the last row counts a false too many.
static void take_reports(void)
{
    put_runs(VYDRULKA_RUNS_MOST / 2);
    make_report();
    memcpy(total, report, sizeof total);
    snprintf(shape, sizeof shape, "two reports of %zu runs", run_count);
    take(ADD);
    memcpy(total, report, sizeof total);
    total[sizeof total - VYDRULKA_ROW_LENGTH + 4]++;
    snprintf(shape, sizeof shape, "two reports of %zu runs, and the last row of one does not agree", run_count);
    take(ADD);
}

static void put_number(uint8_t *bytes, size_t number)
{
    for (size_t i = 0; i < 4; i++)
        bytes[i] = (uint8_t)(number >> 8 * i);
}

// A recording without a hole, or one with a double and a break in every seven records. The events go by the counters.
static void put_recording(int holes)
{
    size_t counter = 0;
    memset(recording, 0, sizeof recording);
    put_number(recording, RECORDS);
    put_number(recording + 4, VYDRULKA_RECORDS_AT);
    put_number(recording + 8, sizeof recording);
    for (size_t i = 0; i < RECORDS; i++) {
        uint8_t *record = recording + VYDRULKA_RECORDS_AT + VYDRULKA_RECORD_LENGTH * i;
        counter += !holes ? 1 : i % 7 == 3 ? 0 : i % 7 == 5 ? 9 : 1;
        put_number(record, counter);
        put_number(record + 4, counter);
    }
}

// Without a hole, with holes, and the same where the last record clashes with the one before it.
static void take_recordings(void)
{
    for (int holes = 0; holes < 2; holes++) {
        put_recording(holes);
        snprintf(shape, sizeof shape, "%d records %s", RECORDS, holes ? "with holes" : "without a hole");
        take(MEND);
        take(STRETCH);
    }
    uint8_t *last = recording + sizeof recording - VYDRULKA_RECORD_LENGTH;
    memcpy(last, last - VYDRULKA_RECORD_LENGTH, VYDRULKA_RECORD_LENGTH);
    last[VYDRULKA_RECORD_LENGTH - 1]++;
    snprintf(shape, sizeof shape, "%d records with holes, and the last clashes", RECORDS);
    take(MEND);
    take(STRETCH);
}

enum { SAMPLE_0 = 16 + 8, SAMPLED_0 = 16 + 16, SAMPLED_1 = SAMPLED_0 + 17 };

// Captures the same event over and over, from the start of a tick on: nothing, or both propositions.
static void take_captures(size_t slots)
{
    for (event = 0; event < 4; event += 3) {
        state_of(second, &formula, 0, slots);
        second[SAMPLED_0] = second[SAMPLED_1] = 0;
        for (size_t i = 0; i < EVENTS; i++)
            events[i] = event;
        take(CAPTURE);
    }
}

static void take_states(size_t slots)
{
    state_of(state, &formula, 1, slots);
    take(CLOSE);
    take(ASK);
    for (event = 0; event < 2; event++) {
        state_of(second, &formula, 0, slots);
        second[SAMPLE_0] = (uint8_t)event;
        slot = slots - 1;
        take(STEP);
    }
    state_of(second, &formula, 0, slots);
    second[SAMPLED_0] = 0;
    slot = 0;
    take(SAMPLE);
    take_captures(slots);
}

// Puts the formula, which leaves room for it, below next: its step leaves what a close is given.
static void take_capture_later(void)
{
    memmove(formula.bytes + 1, formula.bytes, formula.nodes++);
    formula.bytes[0] = VYDRULKA_NODE_NEXT;
    take_captures(1);
}

static void name_shape(const struct pattern *pattern, size_t slots)
{
    int at = snprintf(shape, sizeof shape, "%zu nodes", formula.nodes);
    if (slots > 1)
        at += snprintf(shape + at, sizeof shape - (size_t)at, " in each of %zu slots", slots);
    at += snprintf(shape + at, sizeof shape - (size_t)at, ":");
    for (size_t i = 0; i < pattern->length; i++)
        at += snprintf(shape + at, sizeof shape - (size_t)at, " %s,", layer_name(pattern->layers[i]));
    snprintf(shape + at, sizeof shape - (size_t)at, " around %s", core_name(pattern->core));
}

static void take_nest(const struct pattern *pattern, size_t most, int filled)
{
    nest(&formula, pattern, most, filled);
    name_shape(pattern, 1);
    take_central();
    take_states(1);
    nest(&formula, pattern, most - 1, filled);
    name_shape(pattern, 1);
    take_capture_later();
    nest(&formula, pattern, most / 4, filled);
    name_shape(pattern, 1);
    take_file();
    take_text();
    for (size_t slots = 2; slots <= VYDRULKA_SLOTS_MOST && slots * 4 <= most; slots *= 2) {
        nest(&formula, pattern, most / slots, filled);
        name_shape(pattern, slots);
        take_states(slots);
    }
}

// Of full size, and by halves down to the least, so that not every unfolding and layout is refused.
static void take_sizes(const struct pattern *pattern, size_t least)
{
    take_nest(pattern, VYDRULKA_NODES_MOST, 1);
    for (size_t most = VYDRULKA_NODES_MOST; most >= least; most /= 2)
        take_nest(pattern, most, 0);
}

static void take_layers(size_t least)
{
    for (size_t layer = 0; layer < layer_count; layer++)
        for (size_t core = 0; core < core_count; core++)
            take_sizes(&(struct pattern){1, core, {layer}}, least);
}

static void take_pairs(size_t least)
{
    for (size_t first = 0; first < layer_count; first++)
        for (size_t next = 0; next < layer_count; next++)
            if (first != next)
                take_sizes(&(struct pattern){2, 0, {first, next}}, least);
}

// A capture of the rule file, over a few events.
static void take_run(struct chance *chance)
{
    make_load();
    for (size_t i = 0; i < EVENTS; i++)
        events[i] = below(chance, 4);
    if (answer == 0)
        take(CAPTURE);
}

// A watch of the rule file, for a few ticks.
static void take_watch(struct chance *chance)
{
    take(LOAD);
    for (int ticks = 0; answer == 0 && ticks < 4; ticks++) {
        memcpy(state, second, sizeof state);
        take(ASK);
        size_t slots = numbers[0];
        event = below(chance, 4);
        for (slot = 0; slot < 2; slot++)
            take(SAMPLE);
        for (slot = slots; slot-- > 0;)
            take(STEP);
        memcpy(state, second, sizeof state);
        take(CLOSE);
    }
}

static void take_chances(struct chance *chance, size_t count)
{
    void (*const any[])(struct formula *, struct chance *, size_t) = {any_nest, any_tree};
    for (size_t i = 0; i < count; i++) {
        snprintf(shape, sizeof shape, "input %zu by chance", i);
        any[i % 2](&formula, chance, VYDRULKA_NODES_MOST);
        take_central();
        take_states(1);
        any[i % 2](&formula, chance, VYDRULKA_NODES_MOST - 1);
        take_capture_later();
        any[i % 2](&formula, chance, 8 + below(chance, VYDRULKA_RULE_NODES_MOST - 8));
        take_file();
        take_text();
        take_run(chance);
        take_watch(chance);
    }
}

struct chances {
    struct chance chance;
    size_t count;
};

static void *measure_all(void *given)
{
    struct chances *chances = given;
    take = measure;
    paint_all();
    take_brackets();
    take_runs();
    take_reports();
    take_recordings();
    take_layers(32);
    take_pairs(32);
    take_chances(&chances->chance, chances->count);
    must(paint_all() < 8 * GAP, "painting, for a frame has a wider gap: it");
    return NULL;
}

static void measure_and_print(uint64_t seed, size_t count)
{
    struct chances chances = {{seed}, count};
    pthread_t thread;
    must(pthread_attr_setstacksize(&attributes, PAINTED + (1 << 20)) == 0, "pthread_attr_setstacksize");
    must(pthread_create(&thread, &attributes, measure_all, &chances) == 0, "pthread_create");
    must(pthread_join(thread, NULL) == 0, "pthread_join");
    printf("%-8s %8s %8s %8s  %s\n", "call", "bytes", "inputs", "accepted", "the deepest input");
    for (enum call call = 0; call < CALLS; call++)
        printf("%-8s %8zu %8zu %8zu  %s; answer %" PRIu32 "\n", calls[call].name, found[call].depth, found[call].inputs,
               found[call].accepted, found[call].shape, found[call].answer);
}

// How much of a stack was used, all of which was 0 before.
static size_t used(const uint8_t *stack, size_t size)
{
    size_t untouched = 0;
    while (untouched < size && stack[untouched] == 0)
        untouched++;
    return size - untouched;
}

static void hold_to_limits(void)
{
    take = limit;
    for (limited = 0; limited < CALLS; limited++) {
        size_t size = calls[limited].promised;
        uint8_t *area = mmap(NULL, FORBIDDEN + size, PROT_NONE, MAP_PRIVATE | MAP_ANONYMOUS, -1, 0), *stack = area + FORBIDDEN;
        must(area != MAP_FAILED && mprotect(stack, size, PROT_READ | PROT_WRITE) == 0, "mmap");
        must(pthread_attr_setstack(&attributes, stack, size) == 0, "pthread_attr_setstack");
        printf("%-8s", calls[limited].name);
        fflush(stdout);
        take_brackets();
        take_runs();
        take_reports();
        take_recordings();
        take_layers(VYDRULKA_NODES_MOST);
        size_t most = used(stack, size);
        printf(" %7zu of %7zu bytes used, the thread's own with them; %zu of %zu inputs accepted\n", most, size,
               found[limited].accepted, found[limited].inputs);
        must(found[limited].accepted > 0 && (size <= SMALL || most > size / 2), "going deep: the inputs or the figure");
    }
}

int main(int argc, char **argv)
{
    must(pthread_attr_init(&attributes) == 0, "pthread_attr_init");
    if (argc == 2 && !strcmp(argv[1], "limits"))
        hold_to_limits();
    else if (argc == 3)
        measure_and_print(strtoull(argv[1], NULL, 10), strtoull(argv[2], NULL, 10));
    else
        return fprintf(stderr, "usage: stack SEED COUNT, or stack limits\n"), 2;
    return EXIT_SUCCESS;
}
