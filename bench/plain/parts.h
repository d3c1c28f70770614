// What the files of the plain version share: the node codes, the refusal numbers, the limits, and bytes read and written without
// the C library.

#ifndef PARTS_H
#define PARTS_H

#include <stddef.h>
#include <stdint.h>

enum { NOT = 2, AND, OR, NEXT, UNTIL, EVENTUALLY, ALWAYS, CODES, PROPOSITION = 64, PLACE_HOLDER = 128 };

enum { LENGTH = 1, VERSION, RANGE, OFFSET, MASKS, FORMULA, SLOTS, NODES, STATE, FINISHED, NO_SUCH, BITS, ALREADY, NOT_READY, TICKS,
       TEXT, RUN = 19, CLASH };

enum { FALSE, TRUE, PENDING }; // verdicts

enum { HEADER = 16, MOST_BOARDS = 16, MOST_PROPOSITIONS = 64, MOST_SLOTS = 64 };
enum { MOST_RULE = 1024, MOST = 4096 }; // nodes of a rule, and of everything else

// Written flat, so that a compiler makes one load or store of each.
static inline uint64_t get16(const uint8_t *b)
{
    return b[0] | (uint64_t)b[1] << 8;
}

static inline uint64_t get32(const uint8_t *b)
{
    return b[0] | (uint64_t)b[1] << 8 | (uint64_t)b[2] << 16 | (uint64_t)b[3] << 24;
}

static inline uint64_t get64(const uint8_t *b)
{
    return b[0] | (uint64_t)b[1] << 8 | (uint64_t)b[2] << 16 | (uint64_t)b[3] << 24 | (uint64_t)b[4] << 32 | (uint64_t)b[5] << 40 |
           (uint64_t)b[6] << 48 | (uint64_t)b[7] << 56;
}

static inline void put16(uint8_t *b, uint64_t value)
{
    b[0] = (uint8_t)value;
    b[1] = (uint8_t)(value >> 8);
}

static inline void put32(uint8_t *b, uint64_t value)
{
    b[0] = (uint8_t)value;
    b[1] = (uint8_t)(value >> 8);
    b[2] = (uint8_t)(value >> 16);
    b[3] = (uint8_t)(value >> 24);
}

static inline void put64(uint8_t *b, uint64_t value)
{
    b[0] = (uint8_t)value;
    b[1] = (uint8_t)(value >> 8);
    b[2] = (uint8_t)(value >> 16);
    b[3] = (uint8_t)(value >> 24);
    b[4] = (uint8_t)(value >> 32);
    b[5] = (uint8_t)(value >> 40);
    b[6] = (uint8_t)(value >> 48);
    b[7] = (uint8_t)(value >> 56);
}

// Stretches are written in blocks of a fixed size that a compiler turns into wide loads and stores; where the blocks do not come
// out even the last one overlaps the one before it. The C library's own are faster on long stretches, but slow under an emulator,
// and a program for x86-64 may run under one. The builtins stay what they are where the compiler is told to leave the library's
// names alone.
enum { BLOCK = 16, ROW = 4 * BLOCK };

static inline int left_to_library(size_t count)
{
#ifdef __x86_64__
    (void)count;
    return 0;
#else
    return count >= 3 * ROW;
#endif
}

static inline void copy_short(uint8_t *restrict to, const uint8_t *restrict from, size_t count)
{
    if (count >= 8) {
        uint64_t first = get64(from), last = get64(from + count - 8);
        put64(to, first);
        put64(to + count - 8, last);
    } else if (count >= 4) {
        uint64_t first = get32(from), last = get32(from + count - 4);
        put32(to, first);
        put32(to + count - 4, last);
    } else if (count > 0) {
        uint8_t first = from[0], middle = from[count / 2], last = from[count - 1];
        to[0] = first;
        to[count / 2] = middle;
        to[count - 1] = last;
    }
}

static inline void copy_long(uint8_t *restrict to, const uint8_t *restrict from, size_t count)
{
    if (left_to_library(count)) {
        __builtin_memcpy(to, from, count);
        return;
    }
    size_t i = 0, last = count - BLOCK;
    for (; i + 2 * BLOCK <= last; i += 2 * BLOCK)
        __builtin_memcpy(to + i, from + i, 2 * BLOCK);
    if (i < last)
        __builtin_memcpy(to + i, from + i, BLOCK);
    if (i + BLOCK < last)
        __builtin_memcpy(to + i + BLOCK, from + i + BLOCK, BLOCK);
    __builtin_memcpy(to + last, from + last, BLOCK);
}

static inline void copy_bytes(uint8_t *restrict to, const uint8_t *restrict from, size_t count)
{
    if (count <= BLOCK)
        copy_short(to, from, count);
    else
        copy_long(to, from, count);
}

static inline void clear_short(uint8_t *to, size_t count)
{
    uint8_t *end = to + count;
    if (count >= ROW) {
        for (; end - to > ROW; to += ROW)
            __builtin_memset(to, 0, ROW);
        __builtin_memset(end - ROW, 0, ROW);
    } else if (count >= BLOCK) {
        for (; end - to > BLOCK; to += BLOCK)
            __builtin_memset(to, 0, BLOCK);
        __builtin_memset(end - BLOCK, 0, BLOCK);
    } else if (count >= 4) {
        for (; end - to > 4; to += 4)
            put32(to, 0);
        put32(end - 4, 0);
    } else {
        while (to < end)
            *to++ = 0;
    }
}

static inline void clear_bytes(uint8_t *to, size_t count)
{
    if (left_to_library(count))
        __builtin_memset(to, 0, count);
    else
        clear_short(to, count);
}

// Eight bytes in whichever order the machine has.
static inline uint64_t word(const uint8_t *bytes)
{
    uint64_t eight;
    __builtin_memcpy(&eight, bytes, sizeof eight);
    return eight;
}

// Eight bytes in front of these can be read too: so the last ones, fewer than a word, are read as one. Nothing is tested before
// the end.
static inline int are_zero(const uint8_t *bytes, size_t count)
{
    if (count < 8)
        return count == 0 || get64(bytes + count - 8) >> (64 - 8 * count) == 0;
    uint64_t any = word(bytes + count - 8), other = 0;
    size_t i = 0;
    for (; i + ROW <= count; i += ROW) {
        const uint8_t *b = bytes + i;
        any |= (word(b) | word(b + 8)) | (word(b + 16) | word(b + 24));
        other |= (word(b + 32) | word(b + 40)) | (word(b + 48) | word(b + 56));
    }
    for (; i + 8 <= count; i += 8)
        any |= word(bytes + i);
    return (any | other) == 0;
}

#endif
