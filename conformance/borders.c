/* Put before the C library, this makes a system that a program seldom meets:
 *
 *   CLOCK_STEP=N     each look at the clock is N milliseconds behind the one before it; with 0 the clock stands still
 *   BLOCK_FILE=NAME  what is asked for of a file whose name begins so says that it is a block device
 *   NO_PROC=yes      what is asked for of a path below /proc isn't there
 */
#define _GNU_SOURCE
#include <dlfcn.h>
#include <errno.h>
#include <fcntl.h>
#include <stdio.h>
#include <stdlib.h>
#include <string.h>
#include <sys/stat.h>
#include <time.h>
#include <unistd.h>

#define REAL(name) \
    static __typeof__(name) *real; \
    if (!real) real = (__typeof__(name) *)dlsym(RTLD_NEXT, #name)

int clock_gettime(clockid_t clock, struct timespec *out) {
    static long long looks;
    const char *step = getenv("CLOCK_STEP");
    REAL(clock_gettime);
    if (!step) return real(clock, out);
    long long now = 1000000 + atoll(step) * looks++;
    out->tv_sec = now / 1000;
    out->tv_nsec = now % 1000 * 1000000;
    return 0;
}

/* Whether the name of a file begins so: that of a path, or of what this descriptor is of. */
static int is_named(const char *front, const char *path, int file) {
    char link[64], found[4096];
    if (!path || !*path) {
        snprintf(link, sizeof link, "/proc/self/fd/%d", file);
        ssize_t length = readlink(link, found, sizeof found - 1);
        if (length < 0) return 0;
        found[length] = 0;
        path = found;
    }
    const char *slash = strrchr(path, '/');
    return strncmp(slash ? slash + 1 : path, front, strlen(front)) == 0;
}

int statx(int folder, const char *restrict path, int flags, unsigned int mask, struct statx *restrict out) {
    const char *front = getenv("BLOCK_FILE");
    REAL(statx);
    if (getenv("NO_PROC") && path && strncmp(path, "/proc/", 6) == 0) {
        errno = ENOENT;
        return -1;
    }
    int status = real(folder, path, flags, mask, out);
    if (status == 0 && front && is_named(front, path, folder)) {
        out->stx_mode = (out->stx_mode & ~S_IFMT) | S_IFBLK;
        out->stx_size = 0;
    }
    return status;
}
