// Mend and stretch. One pass over the records looks for a clash, so that what is refused has written nothing, and a second one writes.

#include "../plain.h"
#include "parts.h"

enum { RECORD_BYTES = 12 };
enum { DROPPED = 1, AFTER_BREAK = 2 }; // marks; the others are 0

// Of a record and the next: whether they have one counter, and whether they clash.
static inline int same_counter(const uint8_t *record)
{
    return get32(record) == get32(record + RECORD_BYTES);
}

static inline int clash(const uint8_t *record)
{
    return same_counter(record) & (get64(record + 4) != get64(record + RECORD_BYTES + 4));
}

// Most records have another counter than the next, and their events need not be looked at. Four are asked at once, so that doubles
// here and there, which a processor cannot foresee, cost little.
static int any_clash(const uint8_t *record, size_t count)
{
    enum { R = RECORD_BYTES };
    size_t pairs = count == 0 ? 0 : count - 1;
    for (; pairs >= 4; pairs -= 4, record += 4 * R)
        if (same_counter(record) | same_counter(record + R) | same_counter(record + 2 * R) | same_counter(record + 3 * R))
            if (clash(record) | clash(record + R) | clash(record + 2 * R) | clash(record + 3 * R))
                return 1;
    for (; pairs > 0; pairs--, record += R)
        if (clash(record))
            return 1;
    return 0;
}

// The checks of both calls, which are lent so many marks or events.
static uint32_t check_recording(const uint8_t *recording, size_t length, size_t lent)
{
    if (length < HEADER || get32(recording + 8) != length || get32(recording) != lent)
        return LENGTH;
    if (get32(recording + 4) != HEADER || HEADER + RECORD_BYTES * (uint64_t)lent != length || get32(recording + 12) != 0)
        return OFFSET;
    return any_clash(recording + HEADER, lent) ? CLASH : 0;
}

static void put_header(uint8_t *recording, size_t count)
{
    put32(recording, count);
    put32(recording + 4, HEADER);
    put32(recording + 8, HEADER + RECORD_BYTES * count);
    put32(recording + 12, 0);
}

// Where nothing clashes a step of 0 is a double. Every record is copied, and one that is dropped is written over by the next, so
// that a branch goes by breaks alone. The first record is as if it came one tick after another.
uint32_t plain_mend(const uint8_t *recording, size_t recording_len, uint8_t *mended, size_t mended_len, uint8_t *marks,
                    size_t marks_len, uint64_t *kept, uint64_t *first)
{
    uint32_t number = mended_len != recording_len ? LENGTH : check_recording(recording, recording_len, marks_len);
    if (number != 0)
        return number;
    const uint8_t *record = recording + HEADER;
    uint8_t *to = mended + HEADER, *stretch_end = NULL;
    uint32_t before = marks_len > 0 ? (uint32_t)get32(record) - 1 : 0;
    for (size_t i = 0; i < marks_len; i++, record += RECORD_BYTES) {
        uint32_t counter = (uint32_t)get32(record), step = counter - before;
        before = counter;
        __builtin_memcpy(to, record, RECORD_BYTES);
        if (step > 1) {
            stretch_end = stretch_end == NULL ? to : stretch_end;
            marks[i] = AFTER_BREAK;
            to += RECORD_BYTES;
        } else {
            marks[i] = step == 0 ? DROPPED : 0;
            to += step * (size_t)RECORD_BYTES;
        }
    }
    uint8_t *records = mended + HEADER;
    *kept = (uint64_t)(to - records) / RECORD_BYTES;
    *first = (uint64_t)((stretch_end == NULL ? to : stretch_end) - records) / RECORD_BYTES;
    put_header(mended, *kept);
    clear_bytes(to, (size_t)(mended + mended_len - to));
    return 0;
}

// Up to the first break a step is the number of events that a record adds: one that adds none is written over its equal.
uint32_t plain_stretch(const uint8_t *recording, size_t recording_len, uint64_t *events, size_t events_len, uint64_t *first)
{
    uint32_t number = check_recording(recording, recording_len, events_len);
    if (number != 0)
        return number;
    const uint8_t *record = recording + HEADER, *end = recording + recording_len;
    size_t count = 0;
    uint32_t before = events_len > 0 ? (uint32_t)get32(record) - 1 : 0;
    for (; record < end; record += RECORD_BYTES) {
        uint32_t counter = (uint32_t)get32(record), step = counter - before;
        if (step > 1)
            break;
        before = counter;
        count += step;
        events[count - 1] = get64(record + 4);
    }
    *first = count;
    clear_bytes((uint8_t *)(events + count), (events_len - count) * sizeof *events);
    return 0;
}
