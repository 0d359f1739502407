// Calls the C library on a file, in memory: `check` so many times, and prints the nanoseconds of one; or `sum` or `normal` once.
#define _DEFAULT_SOURCE
#include <fcntl.h>
#include <mp4norm.h>
#include <stdio.h>
#include <stdlib.h>
#include <string.h>
#include <sys/mman.h>
#include <sys/stat.h>
#include <time.h>

int main(int count, char **words) {
    struct stat about;
    struct mp4norm_answer answer;
    int file = count > 2 ? open(words[2], O_RDONLY) : -1;
    if (file < 0 || fstat(file, &about) != 0) return perror("library"), 64;
    size_t len = (size_t)about.st_size;
    const uint8_t *bytes = mmap(NULL, len, PROT_READ, MAP_PRIVATE | MAP_POPULATE, file, 0);
    if (strcmp(words[1], "sum") == 0) {
        struct mp4norm_digest digest;
        mp4norm_sum(bytes, len, 0, &digest, &answer);
    } else if (strcmp(words[1], "normal") == 0) {
        size_t room = len + len / 2 + 4096;
        mp4norm_normal_range(bytes, len, 0, 0, malloc(room), room, &answer);
        if (answer.len == room) return fputs("library: the room is too small\n", stderr), 1;
    } else {
        struct timespec begin, end;
        long times = strtol(words[3], NULL, 10);
        clock_gettime(CLOCK_MONOTONIC, &begin);
        for (long at = 0; at < times; at++) mp4norm_check(bytes, len, &answer);
        clock_gettime(CLOCK_MONOTONIC, &end);
        printf("%.0f\n", ((double)(end.tv_sec - begin.tv_sec) * 1e9 + (double)(end.tv_nsec - begin.tv_nsec)) / (double)times);
    }
    return answer.status == MP4NORM_DONE ? 0 : 1;
}
