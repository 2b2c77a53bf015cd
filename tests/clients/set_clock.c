// The clock of the day at a time that SET_CLOCK says, in microseconds since 1970. It stands still; every other clock goes on.
#include <dlfcn.h>
#include <stdlib.h>
#include <time.h>

int clock_gettime(clockid_t clock, struct timespec *time) {
    static int (*real_clock_gettime)(clockid_t, struct timespec *);
    if (!real_clock_gettime) {
        *(void **)&real_clock_gettime = dlsym(RTLD_NEXT, "clock_gettime");
    }
    const char *said = getenv("SET_CLOCK");
    if (clock == CLOCK_REALTIME && said) {
        long long microseconds = atoll(said);
        time->tv_sec = microseconds / 1000000;
        time->tv_nsec = microseconds % 1000000 * 1000;
        return 0;
    }
    return real_clock_gettime(clock, time);
}
