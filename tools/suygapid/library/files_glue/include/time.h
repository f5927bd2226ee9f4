/* newlib's time.h, with what it declares of a system that has clocks. */
#ifndef _POSIX_TIMERS
#define _POSIX_TIMERS 1
#define _POSIX_MONOTONIC_CLOCK 1
#endif
#include_next <time.h>
