// The system's clock that never goes back.

#define _POSIX_C_SOURCE 199309L

#include "clock.h"

#include <time.h>

double now(void)
{
    struct timespec time;
    clock_gettime(CLOCK_MONOTONIC, &time);
    return 1e9 * (double)time.tv_sec + (double)time.tv_nsec;
}
