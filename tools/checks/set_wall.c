/* Loaded before a program (LD_PRELOAD), it moves the wall clock by the number of seconds in the file that WALL_OFFSET names in
   the environment. The monotonic clock isn't changed. */
#define _GNU_SOURCE
#include <dlfcn.h>
#include <stdio.h>
#include <stdlib.h>
#include <time.h>

static long offset(void) {
    const char *name = getenv("WALL_OFFSET");
    FILE *file = name ? fopen(name, "r") : NULL;
    long seconds = 0;
    if (!file) {
        return 0;
    }
    if (fscanf(file, "%ld", &seconds) != 1) {
        seconds = 0;
    }
    fclose(file);
    return seconds;
}

int clock_gettime(clockid_t clock, struct timespec *time) {
    static int (*next)(clockid_t, struct timespec *);
    if (!next) {
        *(void **)&next = dlsym(RTLD_NEXT, "clock_gettime");
    }
    int status = next(clock, time);
    if (status == 0 && clock == CLOCK_REALTIME) {
        time->tv_sec += offset();
    }
    return status;
}
