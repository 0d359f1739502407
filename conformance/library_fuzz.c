/* Calls the library on files that are changed at random, with buffers that end in front of memory that can't be touched, and
 * in one of four calls with an allocation that is refused. Of each answer it checks what include/mp4norm.h says of all: which
 * statuses there are, which numbers stand beside them, what of a buffer is written, that nothing is kept and no file changed;
 * that a call gives the same answer again; and that calls which judge a whole file agree.
 *
 *     cc library_fuzz.c libmp4norm.a -Wl,--wrap=malloc,--wrap=realloc,--wrap=free -o fuzz && ./fuzz CALLS SEED FILE..
 *
 * The last line says how many calls there were, and how many of each status. At a fault it stops, and leaves the files at
 * fault-1.mp4 and fault-2.mp4.
 */
#define _DEFAULT_SOURCE
#include <mp4norm.h>
#include <stdio.h>
#include <stdlib.h>
#include <string.h>
#include <sys/mman.h>
#include <unistd.h>

/* The longest file, the largest buffer, the most files, what a buffer holds, and the largest allocation that is granted. */
enum { LONGEST = 1 << 14, MOST_ROOM = 1 << 13, MOST_FILES = 4096, BEFORE = 0xA5, LARGEST = 1 << 26 };
enum { CHECK, LENGTH, SUM, NORMAL, PRINT, SHOW, SAMPLES, EXTRACT, BOXES, FIELDS, COMPARE, COMPARE_RANGE, CALLS };

static const char *const NAMES[CALLS] = {"check", "normal_len", "sum", "normal_range", "print_range", "show_range",
                                         "samples_range", "extract_range", "boxes_range", "fields_range", "compare",
                                         "compare_range"};
static long asked, refused, held, refusals;

void *__real_malloc(size_t len);
void *__real_realloc(void *old, size_t len);
void __real_free(void *block);

static int is_refused(size_t len) {
    int is = ++asked == refused || len > LARGEST;
    refusals += is;
    return is;
}

void *__wrap_malloc(size_t len) {
    void *block = is_refused(len) ? NULL : __real_malloc(len);
    held += block != NULL;
    return block;
}

void *__wrap_realloc(void *old, size_t len) {
    void *block = is_refused(len) ? NULL : __real_realloc(old, len);
    held += block != NULL && old == NULL;
    return block;
}

void __wrap_free(void *block) {
    held -= block != NULL;
    __real_free(block);
}

struct file {
    uint8_t bytes[LONGEST];
    size_t len;
};

/* A call: its arguments, what it answers, and the buffer, which has room for so many bytes. */
struct call {
    int which;
    uint32_t words, track, number;
    struct mp4norm_comparison how;
    uint64_t from;
    size_t room;
    long refused;
};

static struct file *seeds[MOST_FILES], now[2];
static int seed_count;
/* What is given to calls ends where these end. */
static uint8_t *file_end[2], *out_end, out_before[MOST_ROOM], out_kept[MOST_ROOM];
static uint64_t state;

/* The next number at random, below another one (xorshift64*, by S. Vigna). */
static uint64_t below(uint64_t most) {
    state ^= state >> 12, state ^= state << 25, state ^= state >> 27;
    return state * UINT64_C(2685821657736338717) % most;
}

/* So many bytes in front of a page that can't be touched: its place. */
static uint8_t *guarded(size_t len) {
    size_t page = (size_t)sysconf(_SC_PAGESIZE), whole = (len + page - 1) / page * page;
    uint8_t *place = mmap(NULL, whole + page, PROT_READ | PROT_WRITE, MAP_PRIVATE | MAP_ANONYMOUS, -1, 0);
    if (place == MAP_FAILED || mprotect(place + whole, page, PROT_NONE) != 0) perror("fuzz"), exit(70);
    return place + whole;
}

/* Writes a number of four bytes at a place, highest byte first. */
static void put_number(uint8_t *at, uint32_t number) {
    for (int byte = 0; byte < 4; byte++) at[byte] = (uint8_t)(number >> (24 - 8 * byte));
}

static uint32_t number_at(const uint8_t *at) {
    return (uint32_t)at[0] << 24 | (uint32_t)at[1] << 16 | (uint32_t)at[2] << 8 | at[3];
}

/* A number of a field that tells cases apart. */
static uint32_t odd_number(const struct file *file) {
    static const uint32_t odd[] = {0, 1, 2, 7, 8, 15, 16, 0x7fffffff, 0x80000000, 0xfffffffe, 0xffffffff, 0x01000000};
    uint64_t pick = below(sizeof odd / sizeof *odd + 2);
    if (pick < sizeof odd / sizeof *odd) return odd[pick];
    return (uint32_t)below(pick % 2 ? file->len + 2 : 64);
}

/* Makes room for bytes at a place, or takes some away. */
static void shift(struct file *file, size_t at, size_t count, int is_gone) {
    if (is_gone) {
        if (count > file->len - at) count = file->len - at;
        memmove(file->bytes + at, file->bytes + at + count, file->len - at - count);
        file->len -= count;
    } else if (file->len + count <= LONGEST) {
        memmove(file->bytes + at + count, file->bytes + at, file->len - at);
        memcpy(file->bytes + at, seeds[below((uint64_t)seed_count)]->bytes, count);
        file->len += count;
    }
}

/* Changes a file once. */
static void change(struct file *file) {
    if (file->len < 8) return;
    size_t at = below(file->len - 7);
    const struct file *other = seeds[below((uint64_t)seed_count)];
    switch (below(9)) {
    case 0: file->bytes[at] ^= (uint8_t)(1 << below(8)); break;
    case 1: file->bytes[at] = (uint8_t)below(256); break;
    case 2: case 3: put_number(file->bytes + at, odd_number(file)); break;
    case 4: put_number(file->bytes + at, number_at(file->bytes + at) + (uint32_t)below(17) - 8); break;
    case 5: file->len = below(file->len + 1); break;
    case 6: shift(file, at, 1 + below(32), 1); break;
    case 7: shift(file, at, 1 + below(32), 0); break;
    default: if (other->len >= 8) memcpy(file->bytes + at, other->bytes + below(other->len - 7), 4 + below(2) * 4);
    }
}

/* Takes a file, and changes it a few times or not at all, where it can't be read behind its end. */
static void make(int number) {
    now[number] = *seeds[below((uint64_t)seed_count)];
    for (uint64_t count = below(3); count > 0; count--) change(&now[number]);
    memcpy(file_end[number] - now[number].len, now[number].bytes, now[number].len);
}

/* Makes the call; with `number` an allocation of that number is refused. */
static struct mp4norm_answer ask(const struct call *call, long number) {
    const uint8_t *file = file_end[0] - now[0].len, *other = file_end[1] - now[1].len;
    size_t len = now[0].len, room = call->room;
    uint8_t *out = out_end - room;
    struct mp4norm_answer answer;
    memset(&answer, BEFORE, sizeof answer);
    memset(out, BEFORE, room);
    asked = held = 0, refused = number;
    switch (call->which) {
    case CHECK: mp4norm_check(file, len, &answer); break;
    case LENGTH: mp4norm_normal_len(file, len, call->words, &answer); break;
    case SUM: mp4norm_sum(file, len, call->words, (struct mp4norm_digest *)out, &answer); break;
    case NORMAL: mp4norm_normal_range(file, len, call->words, call->from, out, room, &answer); break;
    case PRINT: mp4norm_print_range(file, len, call->words, call->from, out, room, &answer); break;
    case SHOW: mp4norm_show_range(file, len, call->from, out, room, &answer); break;
    case SAMPLES: mp4norm_samples_range(file, len, call->track, call->number, call->from, out, room, &answer); break;
    case EXTRACT: mp4norm_extract_range(file, len, call->track, call->from, out, room, &answer); break;
    case BOXES: mp4norm_boxes_range(file, len, call->number, call->from, out, room, &answer); break;
    case FIELDS: mp4norm_fields_range(file, len, call->number, call->track, call->from, out, room, &answer); break;
    case COMPARE: mp4norm_compare(file, len, other, now[1].len, call->words, out, room, &answer); break;
    default: mp4norm_compare_range(file, len, other, now[1].len, &call->how, call->from, out, room, &answer);
    }
    refused = 0;
    return answer;
}

/* A call at random. */
static struct call any_call(void) {
    struct call call = {.which = (int)below(CALLS)};
    call.words = below(4) ? (uint32_t)below(16384) : below(8) ? 0 : (uint32_t)below(1 << 16);
    call.track = (uint32_t)(1 + below(3)), call.number = (uint32_t)below(below(8) ? 2 : 5);
    call.from = below(8) ? below(below(2) ? 1 : 600) : UINT64_MAX - below(9);
    call.room = call.which == SUM ? 32 : below(3) ? below(MOST_ROOM) : below(40);
    call.how.words = call.words, call.how.listing = (uint32_t)below(below(8) ? 3 : 5);
    call.how.limit = (uint32_t)below(20), call.how.syntax = (uint32_t)below(below(8) ? 2 : 4);
    call.refused = below(4) ? 0 : (long)(1 + below(40));
    return call;
}

/* What is wrong with an answer, or nothing. */
static const char *wrong(const struct call *call, const struct mp4norm_answer *answer) {
    int is_pair = call->which >= COMPARE, is_text = call->which >= NORMAL;
    uint32_t status = answer->status;
    int is_done = status == MP4NORM_DONE || (is_pair && status == MP4NORM_DIFFER);
    int may = is_done || status == MP4NORM_REFUSED || status == MP4NORM_MEMORY || (status == MP4NORM_USAGE && call->which != SHOW &&
              call->which != CHECK && call->which != EXTRACT) ||
              (status == MP4NORM_NO_TRACK && (call->which == SAMPLES || call->which == EXTRACT));
    if (!may) return "the status";
    if (held != 0) return "something is still held";
    if (status == MP4NORM_REFUSED) {
        if (answer->kind < 1 || answer->kind > 23) return "the kind";
        if (answer->file > (uint32_t)is_pair || answer->offset > now[answer->file].len) return "the place";
    } else if (answer->kind != 0 || answer->box_type != 0 || answer->offset != 0 || answer->file != 0) {
        return "numbers of a fault without one";
    }
    if (!is_done && answer->len != 0) return "a length without an answer";
    if (is_text && answer->len > call->room) return "the length";
    size_t put = !is_done ? 0 : is_text ? answer->len : call->which == SUM ? 32 : 0;
    if (memcmp(out_end - call->room + put, out_before, call->room - put) != 0) return "the rest of the buffer";
    for (int at = 0; at < 2; at++) {
        if (memcmp(file_end[at] - now[at].len, now[at].bytes, now[at].len) != 0) return "a file that has changed";
    }
    return NULL;
}

/* Whether an answer is another one than the same call gives again, and than `check` gives where that judges the same. */
static const char *otherwise(const struct call *call, const struct mp4norm_answer *answer) {
    memcpy(out_kept, out_end - call->room, call->room);
    struct mp4norm_answer again = ask(call, 0);
    const char *fault = wrong(call, &again);
    if (fault != NULL) return fault;
    if (answer->status == MP4NORM_MEMORY || again.status == MP4NORM_MEMORY) return NULL;
    if (memcmp(answer, &again, sizeof again) != 0) return "another answer to the same call";
    if (memcmp(out_kept, out_end - call->room, call->room) != 0) return "other bytes of the same call";
    if (call->which == BOXES || call->which == FIELDS || call->which >= COMPARE || answer->status == MP4NORM_USAGE) return NULL;
    if ((call->which == LENGTH || call->which == SUM || call->which == NORMAL) && call->words != 0) return NULL;
    if (call->which == PRINT && (call->words & MP4NORM_LEAD_INS) != 0) return NULL;
    struct call checks = {.which = CHECK};
    struct mp4norm_answer judged = ask(&checks, 0);
    if (judged.status == MP4NORM_MEMORY) return NULL;
    int is_fault = answer->status == MP4NORM_REFUSED;
    if (is_fault != (judged.status == MP4NORM_REFUSED)) return "another verdict than that of check";
    return is_fault && memcmp(&judged, answer, sizeof judged) != 0 ? "another fault than that of check" : NULL;
}

static void read_seeds(int count, char **names) {
    for (int at = 0; at < count && seed_count < MOST_FILES; at++) {
        FILE *from = fopen(names[at], "rb");
        if (from == NULL) perror(names[at]), exit(64);
        seeds[seed_count] = __real_malloc(sizeof **seeds);
        seeds[seed_count]->len = fread(seeds[seed_count]->bytes, 1, LONGEST, from);
        fclose(from);
        seed_count++;
    }
}

/* Tells of a fault, and leaves the files. */
static int tell(const struct call *call, unsigned long number, const char *fault) {
    printf("%s: call %lu, words %u, from %llu, room %zu, refused %ld: %s\n", NAMES[call->which], number, call->words,
           (unsigned long long)call->from, call->room, call->refused, fault);
    for (int at = 0; at < 2; at++) {
        FILE *to = fopen(at == 0 ? "fault-1.mp4" : "fault-2.mp4", "wb");
        if (to != NULL) fwrite(now[at].bytes, 1, now[at].len, to), fclose(to);
    }
    return 1;
}

int main(int count, char **words) {
    if (count < 4) return fputs("fuzz: how many calls, a seed and files are wanted\n", stderr), 64;
    unsigned long calls = strtoul(words[1], NULL, 10), made = 0, statuses[65] = {0};
    state = strtoul(words[2], NULL, 10) * 2 + 1;
    read_seeds(count - 3, words + 3);
    file_end[0] = guarded(LONGEST), file_end[1] = guarded(LONGEST), out_end = guarded(MOST_ROOM);
    memset(out_before, BEFORE, MOST_ROOM);
    make(0), make(1);
    while (made < calls) {
        make((int)below(2));
        for (int times = 0; times < 4; times++, made++) {
            struct call call = any_call();
            struct mp4norm_answer answer = ask(&call, call.refused);
            const char *fault = wrong(&call, &answer);
            if (fault == NULL && times == 0) fault = otherwise(&call, &answer);
            if (fault != NULL) return tell(&call, made, fault);
            statuses[answer.status]++;
        }
    }
    printf("%lu calls: done %lu, refused %lu, memory %lu, no track %lu, differ %lu, usage %lu; %ld refused allocations\n", made,
           statuses[0], statuses[1], statuses[2], statuses[4], statuses[5], statuses[64], refusals);
    return 0;
}
