// Loaded before the C library (LD_PRELOAD), holds the syncs of a program while a file is there. It reads:
//   HELD_FILE    the file; its name with `.begun` behind it is made when a sync is held, and while there is one with `.slow` each sync takes a millisecond more,
//                and writes a byte to it before
//   SLOW_MS      or so many milliseconds
//   SYNC_US      how many microseconds each sync takes more, whatever files there are
#include <dlfcn.h>
#include <fcntl.h>
#include <stdio.h>
#include <stdlib.h>
#include <sys/prctl.h>
#include <time.h>
#include <unistd.h>

static void sleep_for(long microseconds) {
    // (a system may let a sleep last longer by this slack)
    prctl(PR_SET_TIMERSLACK, 1UL, 0UL, 0UL, 0UL);
    nanosleep(&(struct timespec){microseconds / 1000000, 1000 * (microseconds % 1000000)}, NULL);
}

static void hold(void) {
    const char *file = getenv("HELD_FILE"), *more = getenv("SLOW_MS"), *each = getenv("SYNC_US");
    char begun[4200], slow[4200];
    if (each != NULL) {
        sleep_for(atol(each));
    }
    if (file == NULL) {
        return;
    }
    snprintf(slow, sizeof slow, "%s.slow", file);
    if (access(slow, F_OK) == 0) {
        int counted = open(slow, O_WRONLY | O_APPEND | O_CLOEXEC);
        if (counted < 0 || write(counted, ".", 1) != 1) {
            abort();
        }
        close(counted);
        nanosleep(&(struct timespec){0, 1000000 * (more == NULL ? 1 : atol(more))}, NULL);
    }
    if (access(file, F_OK) != 0) {
        return;
    }
    snprintf(begun, sizeof begun, "%s.begun", file);
    close(open(begun, O_WRONLY | O_CREAT | O_CLOEXEC, 0666));
    while (access(file, F_OK) == 0) {
        nanosleep(&(struct timespec){0, 1000000}, NULL);
    }
}

static int synced(const char *name, int file) {
    int (*real)(int) = (int (*)(int))dlsym(RTLD_NEXT, name);
    hold();
    return real(file);
}

int fsync(int file) {
    return synced("fsync", file);
}

int fdatasync(int file) {
    return synced("fdatasync", file);
}
