/* Calls the library with an allocator that refuses one allocation: the first, the second, and so on until a call asks for
 * fewer. A call then says that memory was refused, and has written nothing; or it has the answer of before. It never keeps
 * what it was given. For each call a line says how many allocations were refused, and its status where none is. Two files are
 * compared, and a track of the first one is looked at.
 *
 *     cc library.c libmp4norm.a -Wl,--wrap=malloc,--wrap=realloc,--wrap=free -o library && ./library movie.mp4 1 other.mp4
 */
#include <mp4norm.h>
#include <stdio.h>
#include <stdlib.h>
#include <string.h>

enum { ROOM = 1 << 16, BEFORE = 0xA5, MOST = 100000 };

/* How many allocations were asked for, which one is refused, and how many blocks are held. */
static long asked, refused, held;

void *__real_malloc(size_t len);
void *__real_realloc(void *old, size_t len);
void __real_free(void *block);

void *__wrap_malloc(size_t len) {
    void *block = ++asked == refused ? NULL : __real_malloc(len);
    held += block != NULL;
    return block;
}

void *__wrap_realloc(void *old, size_t len) {
    void *block = ++asked == refused ? NULL : __real_realloc(old, len);
    held += block != NULL && old == NULL;
    return block;
}

void __wrap_free(void *block) {
    held -= block != NULL;
    __real_free(block);
}

static const char *const NAMES[] = {"check", "sum", "normal_range", "print_range", "show_range", "samples_range",
                                    "extract_range", "boxes_range", "compare", "compare_range", "normal_len",
                                    "fields_range"};
static uint8_t file[ROOM], other[ROOM], due[ROOM], out[ROOM], before[ROOM];
static size_t len, other_len;
static uint32_t track;

/* Makes one of the calls; the allocation of this number is refused, or none if it is 0. */
static struct mp4norm_answer call(size_t which, long at, uint8_t *put) {
    static const struct mp4norm_comparison how = {0, MP4NORM_ALL, 100, MP4NORM_JSON};
    struct mp4norm_answer answer;
    memset(&answer, BEFORE, sizeof answer);
    memset(put, BEFORE, ROOM);
    asked = held = 0, refused = at;
    switch (which) {
    case 0: mp4norm_check(file, len, &answer); break;
    case 1: mp4norm_sum(file, len, 0, (struct mp4norm_digest *)put, &answer); break;
    case 2: mp4norm_normal_range(file, len, 0, 0, put, ROOM, &answer); break;
    case 3: mp4norm_print_range(file, len, 0, 0, put, ROOM, &answer); break;
    case 4: mp4norm_show_range(file, len, 0, put, ROOM, &answer); break;
    case 5: mp4norm_samples_range(file, len, track, MP4NORM_PLAIN, 0, put, ROOM, &answer); break;
    case 6: mp4norm_extract_range(file, len, track, 0, put, ROOM, &answer); break;
    case 7: mp4norm_boxes_range(file, len, MP4NORM_JSON, 0, put, ROOM, &answer); break;
    case 8: mp4norm_compare(file, len, other, other_len, 0, put, ROOM, &answer); break;
    case 9: mp4norm_compare_range(file, len, other, other_len, &how, 0, put, ROOM, &answer); break;
    case 10: mp4norm_normal_len(file, len, 0, &answer); break;
    default: mp4norm_fields_range(file, len, MP4NORM_LINES, 16, 0, put, ROOM, &answer);
    }
    refused = 0;
    return answer;
}

/* What is wrong, or nothing, with an answer where an allocation was refused. */
static const char *wrong(struct mp4norm_answer answer, struct mp4norm_answer whole) {
    static const struct mp4norm_answer none = {MP4NORM_MEMORY, 0, 0, 0, 0, 0};
    if (held != 0) return "something is still held";
    if (memcmp(&answer, &whole, sizeof answer) == 0) return memcmp(out, due, ROOM) == 0 ? NULL : "other bytes are put";
    if (memcmp(&answer, &none, sizeof answer) != 0) return "another answer";
    return memcmp(out, before, ROOM) == 0 ? NULL : "something is put, and memory was refused";
}

/* Reads a file into ROOM bytes: its length. */
static size_t read_file(const char *name, uint8_t *into) {
    FILE *from = fopen(name, "rb");
    if (from == NULL) perror(name), exit(64);
    size_t count = fread(into, 1, ROOM, from);
    fclose(from);
    return count;
}

int main(int count, char **words) {
    if (count != 4) return fputs("library: a file, a track and another file are wanted\n", stderr), 64;
    len = read_file(words[1], file), other_len = read_file(words[3], other);
    track = (uint32_t)strtoul(words[2], NULL, 10);
    memset(before, BEFORE, ROOM);
    for (size_t which = 0; which < sizeof NAMES / sizeof *NAMES; which++) {
        struct mp4norm_answer whole = call(which, 0, due);
        const char *fault = whole.status == MP4NORM_MEMORY ? "no memory" : held != 0 ? "something is still held" : NULL;
        long at = 1;
        for (; fault == NULL && at < MOST; at++) {
            struct mp4norm_answer answer = call(which, at, out);
            fault = wrong(answer, whole);
            if (asked < at) break;
        }
        if (fault != NULL) printf("%s: allocation %ld: %s\n", NAMES[which], at, fault);
        else printf("%s %ld %u\n", NAMES[which], at - 1, whole.status);
    }
    return 0;
}
