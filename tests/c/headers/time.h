/* For a compiler that comes without C's headers. */
#pragma once
struct timespec {
    long tv_sec;
    long tv_nsec;
};
int clock_gettime(int, struct timespec *);
#define CLOCK_MONOTONIC 1
