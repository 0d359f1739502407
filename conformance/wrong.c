/* Which wrong program runs: `mp4norm_is_wrong` asks whether it is the one of this number, which stands behind the last `-` of the
 * name of the program's file. It is linked to programs for x86-64 that conformance/left_out builds, without a C library. */
enum { READLINK = 89, MOST = 4096 };

static long length_of_link(const char *path, char *name) {
    long length;
    __asm__ volatile("syscall"
                     : "=a"(length)
                     : "a"((long)READLINK), "D"(path), "S"(name), "d"((long)MOST)
                     : "rcx", "r11", "memory");
    return length;
}

unsigned mp4norm_is_wrong(unsigned number) {
    static long known = -1;
    if (known < 0) {
        char name[MOST];
        long length = length_of_link("/proc/self/exe", name);
        known = 0;
        for (long k = 0, is_behind = 0; k < length; k++) {
            if (name[k] == '-') {
                known = 0;
                is_behind = 1;
            } else if (is_behind && '0' <= name[k] && name[k] <= '9') {
                known = 10 * known + name[k] - '0';
            } else {
                is_behind = 0;
                known = 0;
            }
        }
    }
    return known == (long)number;
}
