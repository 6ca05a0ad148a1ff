/* SPDX-License-Identifier: MIT OR Apache-2.0 */
/* Stops the clock of a program, so that a picture does not depend on the moment: the time is the value of the variable
 * CLOCK, in seconds since 1970. Clocks that measure how long something takes go on. LD_PRELOAD loads this library. */
#define _GNU_SOURCE
#include <stdlib.h>
#include <sys/syscall.h>
#include <sys/time.h>
#include <time.h>
#include <unistd.h>

time_t time(time_t *place) {
    time_t now = (time_t)atoll(getenv("CLOCK"));
    if (place != NULL) *place = now;
    return now;
}

int gettimeofday(struct timeval *place, void *zone) {
    (void)zone;
    place->tv_sec = time(NULL);
    place->tv_usec = 0;
    return 0;
}

int clock_gettime(clockid_t clock, struct timespec *place) {
    if (clock != CLOCK_REALTIME && clock != CLOCK_REALTIME_COARSE) return (int)syscall(SYS_clock_gettime, clock, place);
    place->tv_sec = time(NULL);
    place->tv_nsec = 0;
    return 0;
}
