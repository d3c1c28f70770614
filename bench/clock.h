// The clock.

#ifndef CLOCK_H
#define CLOCK_H

// Nanoseconds since some moment.
double now(void);

static inline double least(double a, double b)
{
    return a < b ? a : b;
}

#endif
