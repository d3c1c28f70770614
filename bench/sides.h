// The two sides that are timed: the library and the plain C version, call by call.

#ifndef SIDES_H
#define SIDES_H

#include "cases.h"

struct side {
    uint32_t (*read)(const uint8_t *, size_t, uint64_t *, size_t, uint8_t *, size_t, uint64_t *, uint64_t *, uint64_t *);
    uint32_t (*write)(const uint64_t *, size_t, uint64_t, const uint8_t *, size_t, uint8_t *, size_t, uint64_t *);
    uint32_t (*central)(const uint8_t *, size_t, uint64_t, uint8_t *, size_t, uint32_t *, uint64_t *);
    uint32_t (*load)(const uint8_t *, size_t, uint8_t *, size_t);
    uint32_t (*sample)(uint8_t *, size_t, uint64_t, uint64_t);
    uint32_t (*step)(uint8_t *, size_t, uint64_t);
    uint32_t (*close)(const uint8_t *, size_t, uint8_t *, size_t);
    uint32_t (*ask)(const uint8_t *, size_t, uint32_t *, uint32_t *, uint64_t *, uint64_t *);
    uint32_t (*capture)(uint8_t *, size_t, uint8_t *, size_t, const uint64_t *, size_t, uint64_t *, uint32_t *, uint32_t *);
    uint32_t (*parse)(const uint8_t *, size_t, uint8_t *, size_t, uint64_t *, uint64_t *, uint64_t *);
    uint32_t (*print)(const uint8_t *, size_t, uint8_t *, size_t, uint64_t *);
    uint32_t (*report)(const uint8_t *, size_t, uint8_t *, size_t, uint64_t *);
    uint32_t (*add)(uint8_t *, size_t, const uint8_t *, size_t);
    uint32_t (*mend)(const uint8_t *, size_t, uint8_t *, size_t, uint8_t *, size_t, uint64_t *, uint64_t *);
    uint32_t (*stretch)(const uint8_t *, size_t, uint64_t *, size_t, uint64_t *);
};

extern const struct side library, plain;

// A tick by the single calls, which leave its network in the second buffer: the number of the first refusal.
uint32_t tick(const struct side *side, const struct input *in, uint64_t event, uint8_t *state, uint8_t *second);

#endif
