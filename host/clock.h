// Times in milliseconds.
#ifndef HOST_CLOCK_H
#define HOST_CLOCK_H

#include <stdbool.h>
#include <stdint.h>
#include <time.h>

static inline uint64_t clock_ms(clockid_t of)
{
    struct timespec now;
    clock_gettime(of, &now);
    return (uint64_t)now.tv_sec * 1000 + (uint64_t)now.tv_nsec / 1000000;
}

// A clock that never goes back.
static inline uint64_t now_ms(void)
{
    return clock_ms(CLOCK_MONOTONIC);
}

// The same in microseconds.
static inline uint64_t now_us(void)
{
    struct timespec now;
    clock_gettime(CLOCK_MONOTONIC, &now);
    return (uint64_t)now.tv_sec * 1000000 + (uint64_t)now.tv_nsec / 1000;
}

// One that goes on while the machine is suspended.
static inline uint64_t boot_ms(void)
{
    return clock_ms(CLOCK_BOOTTIME);
}

static inline struct timespec time_of(uint64_t milliseconds)
{
    return (struct timespec){
        (time_t)(milliseconds / 1000), (long)(milliseconds % 1000) * 1000000};
}

// Sleeps that long. Returns false if a signal ended it sooner.
static inline bool sleep_ms(uint64_t milliseconds)
{
    struct timespec time = time_of(milliseconds);
    return nanosleep(&time, NULL) == 0;
}

#endif
