// Operands owed: a reader that starts with one formula owed is past it when none is owed any more.

#ifndef OPERANDS_H
#define OPERANDS_H

#include "parts.h"

// What each byte adds to the operands owed, itself taken off, where there are so many propositions and no place holders. Any other
// byte adds more than all the bytes behind it can take off, so that it needs no test of its own.
extern const int16_t owes[MOST_PROPOSITIONS + 1][256];

// Past so many operands at p, or NULL where they do not end by the end. `of` is the line of the table. Four bytes at a time where
// there are four, so that the end is tested less often.
static inline const uint8_t *past_operands(const uint8_t *p, const uint8_t *end, int owed, const int16_t *of)
{
    for (; end - p >= 4; p += 4) {
        if ((owed += of[p[0]]) == 0)
            return p + 1;
        if ((owed += of[p[1]]) == 0)
            return p + 2;
        if ((owed += of[p[2]]) == 0)
            return p + 3;
        if ((owed += of[p[3]]) == 0)
            return p + 4;
    }
    while (p < end)
        if ((owed += of[*p++]) == 0)
            return p;
    return NULL;
}

#endif
