/* Put before the C library, this makes calls of a program fail. FAIL_CALL says of which kind:
 *
 *   alloc   an allocation                        open    opening a file that is there
 *   read    a read of a file by place            make    opening one that is made
 *   input   a read of what has no places         seek    going to a place of a file
 *   length  asking for what is known of a file   copy    making a second descriptor of a file
 *   write   a write, but to standard error       sync    bringing a file to the disk
 *   rename, unlink, chmod, chown
 *
 * FAIL_AT says which one, from 1 on; with FAIL_REST all behind it fail too. With FAIL_FILE only calls count that are about a
 * file whose name begins so. FAIL_ERROR is the number of the error, where it isn't the kind's own. FAIL_TAKEN says how many
 * bytes of the write that fails are taken first; -1 is all but one. At the end the number of calls of that kind is written
 * to the file FAIL_TOLD, and for writes the length of each.
 * Before the call MEANWHILE_AT of the kind MEANWHILE_CALL, about a file whose name begins with MEANWHILE_FILE where that is
 * given, the shell runs the words of MEANWHILE.
 * Behind CHANGE_AFTER reads that cover the byte CHANGE_AT of a file, that byte is CHANGE_TO. */
#define _GNU_SOURCE
#include <dlfcn.h>
#include <errno.h>
#include <fcntl.h>
#include <stdarg.h>
#include <stdio.h>
#include <stdlib.h>
#include <string.h>
#include <sys/stat.h>
#include <sys/types.h>
#include <sys/wait.h>
#include <unistd.h>

static long calls;

/* Lengths of writes, as many as there is room for. */
static size_t lengths[4096];
static long noted;

#define REAL(name) \
    static __typeof__(name) *real; \
    if (!real) real = (__typeof__(name) *)dlsym(RTLD_NEXT, #name)

/* Whether the last part of a path begins so. */
static int begins(const char *path, const char *front) {
    const char *slash = strrchr(path, '/');
    return strncmp(slash ? slash + 1 : path, front, strlen(front)) == 0;
}

/* Whether the path, or without one the file of this descriptor, has a name that begins as the variable says. */
static int is_about(const char *variable, const char *path, int file) {
    char link[64], found[4096];
    const char *front = getenv(variable);
    if (!front) return 1;
    if (path && *path) return begins(path, front);
    snprintf(link, sizeof link, "/proc/self/fd/%d", file);
    ssize_t length = readlink(link, found, sizeof found - 1);
    if (length < 0) return 0;
    found[length] = 0;
    return begins(found, front);
}

/* Runs the words of MEANWHILE where it is time. */
static void pass(const char *kind, const char *path, int file) {
    static long seen;
    const char *wanted = getenv("MEANWHILE_CALL"), *at = getenv("MEANWHILE_AT");
    if (!wanted || !at || strcmp(wanted, kind) != 0 || !is_about("MEANWHILE_FILE", path, file)) return;
    if (++seen != atol(at)) return;
    pid_t child = fork();
    if (child == 0) {
        unsetenv("LD_PRELOAD");
        execl("/bin/sh", "sh", "-c", getenv("MEANWHILE"), (char *)NULL);
        _exit(127);
    }
    waitpid(child, NULL, 0);
}

/* Whether this call of the kind fails; then the error is set. */
static int fails_about(const char *kind, const char *path, int file, int error) {
    const char *wanted = getenv("FAIL_CALL"), *at = getenv("FAIL_AT"), *own = getenv("FAIL_ERROR");
    pass(kind, path, file);
    if (!wanted || !at || strcmp(wanted, kind) != 0 || !is_about("FAIL_FILE", path, file)) return 0;
    calls++;
    if (calls != atol(at) && !(getenv("FAIL_REST") && atol(at) > 0 && calls > atol(at))) return 0;
    errno = own ? atoi(own) : error;
    return 1;
}

__attribute__((destructor)) static void tell(void) {
    const char *told = getenv("FAIL_TOLD");
    long count = calls;
    FILE *file = told ? fopen(told, "w") : NULL;
    if (!file) return;
    fprintf(file, "%ld\n", count);
    for (long k = 0; k < noted; k++) fprintf(file, "%zu\n", lengths[k]);
    fclose(file);
}

/* An allocation is about no file. */
static int refused(void) {
    const char *wanted = getenv("FAIL_CALL"), *at = getenv("FAIL_AT");
    if (!wanted || !at || strcmp(wanted, "alloc") != 0) return 0;
    calls++;
    return calls == atol(at) || (getenv("FAIL_REST") && atol(at) > 0 && calls > atol(at));
}

void *malloc(size_t size) {
    REAL(malloc);
    return refused() ? NULL : real(size);
}

void *realloc(void *old, size_t size) {
    REAL(realloc);
    return refused() ? NULL : real(old, size);
}

/* Changes a byte of what was read, but the first times. */
static void change(unsigned char *out, ssize_t taken, off_t at) {
    static long seen;
    const char *place = getenv("CHANGE_AT"), *to = getenv("CHANGE_TO"), *after = getenv("CHANGE_AFTER");
    if (!place || !to || !after || taken <= 0) return;
    off_t from = atol(place);
    if (from < at || from >= at + taken) return;
    if (seen >= atol(after)) out[from - at] = (unsigned char)atoi(to);
    seen++;
}

ssize_t pread(int file, void *out, size_t count, off_t at) {
    REAL(pread);
    if (fails_about("read", NULL, file, EIO)) return -1;
    ssize_t taken = real(file, out, count, at);
    change(out, taken, at);
    return taken;
}

ssize_t read(int file, void *out, size_t count) {
    REAL(read);
    return fails_about("input", NULL, file, EIO) ? -1 : real(file, out, count);
}

int statx(int folder, const char *restrict path, int flags, unsigned int mask, struct statx *restrict out) {
    REAL(statx);
    return fails_about("length", path, folder, EIO) ? -1 : real(folder, path, flags, mask, out);
}

off_t lseek(int file, off_t to, int from) {
    REAL(lseek);
    return fails_about("seek", NULL, file, EIO) ? -1 : real(file, to, from);
}

int open(const char *path, int flags, ...) {
    REAL(open);
    va_list more;
    va_start(more, flags);
    mode_t mode = flags & O_CREAT ? va_arg(more, mode_t) : 0;
    va_end(more);
    return fails_about(flags & O_CREAT ? "make" : "open", path, -1, EIO) ? -1 : real(path, flags, mode);
}

int openat(int folder, const char *path, int flags, ...) {
    REAL(openat);
    va_list more;
    va_start(more, flags);
    mode_t mode = flags & O_CREAT ? va_arg(more, mode_t) : 0;
    va_end(more);
    if (fails_about(flags & O_CREAT ? "make" : "open", path, -1, EIO)) return -1;
    return real(folder, path, flags, mode);
}

int fcntl(int file, int asked, ...) {
    REAL(fcntl);
    va_list more;
    va_start(more, asked);
    void *word = va_arg(more, void *);
    va_end(more);
    int copies = asked == F_DUPFD || asked == F_DUPFD_CLOEXEC;
    return copies && fails_about("copy", NULL, file, EMFILE) ? -1 : real(file, asked, word);
}

/* A write that fails may take some bytes; the call after it then fails with nothing taken. Standard error always works. */
ssize_t write(int file, const void *bytes, size_t count) {
    static int is_broken;
    REAL(write);
    if (file == 2) return real(file, bytes, count);
    if (is_broken) {
        is_broken = 0;
        errno = ENOSPC;
        return -1;
    }
    if (noted < 4096) lengths[noted++] = count;
    if (fails_about("write", NULL, file, ENOSPC)) {
        const char *said = getenv("FAIL_TAKEN");
        long asked = said ? atol(said) : 0;
        size_t taken = asked < 0 ? count - 1 : (size_t)asked;
        if (taken == 0 || taken >= count) return -1;
        is_broken = 1;
        return real(file, bytes, taken);
    }
    return real(file, bytes, count);
}

int fsync(int file) {
    REAL(fsync);
    return fails_about("sync", NULL, file, EIO) ? -1 : real(file);
}

int rename(const char *from, const char *to) {
    REAL(rename);
    return fails_about("rename", from, -1, EACCES) ? -1 : real(from, to);
}

int unlink(const char *path) {
    REAL(unlink);
    return fails_about("unlink", path, -1, EACCES) ? -1 : real(path);
}

int chmod(const char *path, mode_t mode) {
    REAL(chmod);
    return fails_about("chmod", path, -1, EACCES) ? -1 : real(path, mode);
}

int fchown(int file, uid_t owner, gid_t group) {
    REAL(fchown);
    return fails_about("chown", NULL, file, EPERM) ? -1 : real(file, owner, group);
}

int fchmod(int file, mode_t mode) {
    REAL(fchmod);
    return fails_about("chmod", NULL, file, EACCES) ? -1 : real(file, mode);
}
