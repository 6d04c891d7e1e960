/* A library to preload: it records, delays or fails the syncs of a program, and sets its clock. The environment says how:
 *
 * SYNCED         after each sync, and before it returns, the length of the synced file is written into this file
 * SYNC_DELAY     each sync takes this number of microseconds longer
 * SYNC_FAILS     while this file exists, each sync fails
 * CLOCK          a file with the number of seconds that are added to the time of day
 *
 * All this is about regular files; folders are synced as without the library.
 */
#define _GNU_SOURCE
#include <dlfcn.h>
#include <errno.h>
#include <fcntl.h>
#include <stdio.h>
#include <stdlib.h>
#include <string.h>
#include <sys/stat.h>
#include <time.h>
#include <unistd.h>

#define NEXT(call) static __typeof__(call) *next; if (!next) next = (__typeof__(call) *)dlsym(RTLD_NEXT, #call)

static int sync_with(int file, int (*next)(int)) {
    const char *delay = getenv("SYNC_DELAY"), *mark = getenv("SYNC_FAILS"), *synced = getenv("SYNCED");
    struct stat about;
    char text[32];
    int kept;
    if (fstat(file, &about)) return -1;
    if (delay && S_ISREG(about.st_mode)) usleep(strtoul(delay, 0, 10));
    if (mark && S_ISREG(about.st_mode) && !access(mark, F_OK)) { errno = EIO; return -1; }
    if (next(file)) return -1;
    if (synced && S_ISREG(about.st_mode)) {
        sprintf(text, "%020lld\n", (long long)about.st_size);
        kept = open(synced, O_WRONLY | O_CREAT, 0600);
        if (pwrite(kept, text, strlen(text), 0) != (ssize_t)strlen(text)) abort();
        close(kept);
    }
    return 0;
}

int fdatasync(int file) {
    NEXT(fdatasync);
    return sync_with(file, next);
}

int fsync(int file) {
    NEXT(fsync);
    return sync_with(file, next);
}

int clock_gettime(clockid_t clock, struct timespec *at) {
    const char *name = getenv("CLOCK");
    char text[32] = {0};
    int file;
    double by = 0;
    NEXT(clock_gettime);
    if (next(clock, at)) return -1;
    if (clock != CLOCK_REALTIME || !name || (file = open(name, O_RDONLY)) < 0) return 0;
    if (read(file, text, sizeof text - 1) > 0) by = strtod(text, 0);
    close(file);
    at->tv_sec += (time_t)by;
    at->tv_nsec += (long)((by - (double)(time_t)by) * 1e9);
    if (at->tv_nsec < 0) { at->tv_nsec += 1000000000; at->tv_sec--; }
    if (at->tv_nsec >= 1000000000) { at->tv_nsec -= 1000000000; at->tv_sec++; }
    return 0;
}
