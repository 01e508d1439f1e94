/* Loaded before the C library: each sync takes as many microseconds longer as the variable SYNC_DELAY says, as on a disk with slower syncs. */
#define _GNU_SOURCE
#include <dlfcn.h>
#include <stdlib.h>
#include <time.h>

static void delayed(void) {
    const char *word = getenv("SYNC_DELAY");
    long delay = word ? atol(word) : 0;
    struct timespec time = {delay / 1000000, delay % 1000000 * 1000};
    nanosleep(&time, NULL);
}

int fsync(int file) {
    int (*next)(int) = (int (*)(int))dlsym(RTLD_NEXT, "fsync");
    delayed();
    return next(file);
}

int fdatasync(int file) {
    int (*next)(int) = (int (*)(int))dlsym(RTLD_NEXT, "fdatasync");
    delayed();
    return next(file);
}
