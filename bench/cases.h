// The inputs that are timed.

#ifndef CASES_H
#define CASES_H

#include <stddef.h>
#include <stdint.h>

enum call { READ, WRITE, CENTRAL, LOAD, SAMPLE, STEP, CLOSE, ASK, TICK, CAPTURE, CAPTURE_OF_TICK };

enum { MOST_MASKS = 16, MOST_TICKS = 64, MOST_FORMULA = 4096, STATE_BYTES = 4768, MOST_BYTES = STATE_BYTES };

// One call's input: the file of read and load, the masks, number of propositions and formula of write, the formula and event of
// central, the state of sample, step, close and ask. The last three go through a rule's events from its load on. TICK is whole ticks:
// all samples, all steps, the highest slot first, a close into the second buffer, and the buffers change places. CAPTURE is the same
// by one call, and CAPTURE_OF_TICK the library's capture beside the plain version's ticks.
struct input {
    const char *name;
    enum call call;
    uint8_t bytes[MOST_BYTES];
    size_t count;
    uint64_t masks[MOST_MASKS];
    size_t masks_count;
    uint64_t number;      // propositions, event, bits or slot
    uint64_t board;       // of sample
    size_t touched, past; // the bytes that sample or step may write, from one place to before the other
    uint64_t events[MOST_TICKS];
    size_t ticks;
    uint32_t refusal;    // what both sides must answer
    const char *typical; // of a slow input: the case of the same call that it is compared with
};

enum { MOST_CASES = 128 };
extern const size_t input_count;

// Makes the input with this number.
void make_input(size_t which, struct input *input);

#endif
