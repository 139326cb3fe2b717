/* For LD_PRELOAD: the monotonic clock is the processor time of the calling thread, so that waiting for a processor doesn't count. */
#define _GNU_SOURCE
#include <sys/syscall.h>
#include <time.h>
#include <unistd.h>

int clock_gettime(clockid_t clock, struct timespec *time) {
    clockid_t read = clock == CLOCK_MONOTONIC ? CLOCK_THREAD_CPUTIME_ID : clock;
    return (int)syscall(SYS_clock_gettime, read, time);
}
