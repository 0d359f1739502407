/* A program that answers with the library's calls what `mp4norm` answers, as far as a file in memory goes: boxes, show, samples,
 * extract, normalise, check, print, sum and compare, with the words that the suite uses. So the suite can be run on the library
 * (library_suite). Each text is asked for in windows, of which none begins at the same place as another.
 *
 *     cc library_program.c libmp4norm.a -o library-program && conformance/run ./library-program --commands show
 */
#define _DEFAULT_SOURCE
#include <fcntl.h>
#include <mp4norm.h>
#include <stdio.h>
#include <stdlib.h>
#include <string.h>
#ifdef _WIN32
#include <io.h>
#else
#include <sys/mman.h>
#include <sys/stat.h>
#include <unistd.h>
/* Elsewhere a file of texts is read and written as any other. */
enum { O_BINARY = 0 };
#endif

/* The first window; and the most bytes of standard input. */
enum { ROOM = 1 << 12, LONGEST = 1 << 30 };

static const char *const KINDS[] = {
    "", "ShortHeader", "BadSize", "Overrun", "ShortBox", "BoxNotInProfile", "DuplicateBox", "MissingBox", "BadVersion",
    "BadFlags", "BadValue", "OutsideData", "CountMismatch", "BadOrder", "BadDescriptionIndex", "SampleOutsideFile",
    "UnknownTrack", "Gap", "OffsetTooLarge", "ItemLocation", "TooManySamples", "TimeTooLarge", "MovieTooLarge",
    "FragmentBeforeMovie"};
static const char *const WORDS[] = {"times", "edits", "flags", "groups", "metadata",
                                    "bitrates", "ends", "origins", "labels", "timing",
                                    "roles", "ids", "timescales", "lead-ins"};
enum { WORD_COUNT = sizeof WORDS / sizeof *WORDS };
/* Sets of these words. */
static const struct {
    const char *name;
    uint32_t flags;
} SETS[] = {{"packaging-1", MP4NORM_PACKAGING_1}, {"media-1", MP4NORM_MEDIA_1},
            {"packaging-2", MP4NORM_PACKAGING_2}, {"media-2", MP4NORM_MEDIA_2}};
enum { SET_COUNT = sizeof SETS / sizeof *SETS };

struct bytes {
    const uint8_t *at;
    size_t len;
};

/* What is asked for: the command, files, and options. */
struct asked {
    const char *command, *files[2], *out;
    int count, is_json, has_header, is_all;
    uint32_t track, words, limit;
};

static void fail(const char *what, int status) {
    fprintf(stderr, "failed: %s\n", what);
    exit(status);
}

#ifdef _WIN32
/* The bytes of a file, or of standard input, of which all are read. */
static struct bytes open_file(const char *name) {
    int from = strcmp(name, "-") == 0 ? 0 : open(name, O_RDONLY | O_BINARY), count = from < 0 ? -1 : 1;
    uint8_t *held = malloc(ROOM);
    struct bytes file = {held, 0};
    if (from == 0) _setmode(0, O_BINARY);
    for (size_t room = ROOM; held != NULL && count > 0;) {
        count = read(from, held + file.len, (unsigned)(room - file.len));
        if (count > 0) file.len += (size_t)count;
        if (file.len == room) held = realloc(held, room *= 2);
    }
    file.at = held;
    if (held == NULL) fail("memory", 2);
    if (count < 0) fail("store", 3);
    return file;
}
#else
/* The bytes of a file, or of the file that is standard input. */
static struct bytes open_file(const char *name) {
    static const uint8_t none[1];
    int is_input = strcmp(name, "-") == 0, from = is_input ? 0 : open(name, O_RDONLY);
    struct stat about;
    struct bytes file = {none, 0};
    if (from < 0 || fstat(from, &about) != 0) fail("store", 3);
    if (!S_ISREG(about.st_mode)) {
        if (!is_input) fail("store", 3);
        uint8_t *held = malloc(LONGEST);
        ssize_t count = 0;
        while (held != NULL && (count = read(from, held + file.len, LONGEST - file.len)) > 0) file.len += (size_t)count;
        if (held == NULL || count < 0) fail("store", 3);
        file.at = held;
    } else if (about.st_size > 0) {
        file.len = (size_t)about.st_size;
        if (is_input && file.len > LONGEST) fail("store", 3);
        file.at = mmap(NULL, file.len, PROT_READ, MAP_PRIVATE, from, 0);
        if (file.at == MAP_FAILED) fail("memory", 2);
    }
    return file;
}
#endif

/* What is said of an answer that is no text: the status. */
static int said(FILE *to, const struct asked *asked, const struct mp4norm_answer *answer) {
    uint8_t code[4];
    int is_plain = 1;
    for (int at = 0; at < 4; at++) {
        code[at] = (uint8_t)(answer->box_type >> (24 - 8 * at));
        is_plain &= code[at] > 31 && code[at] < 127;
    }
    if (answer->status == MP4NORM_REFUSED) {
        if (asked->count == 2 || strcmp(asked->command, "sum") == 0) fprintf(to, "%s: ", asked->files[answer->file]);
        fprintf(to, "refused: %s in ", KINDS[answer->kind]);
        if (is_plain) fprintf(to, "%.4s", (const char *)code);
        else fprintf(to, "%02x%02x%02x%02x", code[0], code[1], code[2], code[3]);
        fprintf(to, " at %llu\n", (unsigned long long)answer->offset);
    } else if (answer->status == MP4NORM_MEMORY) {
        fputs("failed: memory\n", to);
    } else if (answer->status == MP4NORM_NO_TRACK) {
        fputs("failed: no such track\n", to);
    }
    return (int)answer->status;
}

/* The window of the text that is asked for. */
static void window(const struct asked *asked, const struct bytes *of, uint64_t from, uint8_t *out, size_t room,
                   struct mp4norm_answer *answer) {
    uint32_t syntax = asked->is_json ? MP4NORM_JSON : MP4NORM_LINES;
    if (strcmp(asked->command, "boxes") == 0) {
        mp4norm_boxes_range(of->at, of->len, syntax, from, out, room, answer);
    } else if (strcmp(asked->command, "show") == 0) {
        mp4norm_show_range(of->at, of->len, from, out, room, answer);
    } else if (strcmp(asked->command, "samples") == 0) {
        uint32_t form = asked->is_json ? MP4NORM_OBJECTS : asked->has_header ? MP4NORM_NAMED : MP4NORM_PLAIN;
        mp4norm_samples_range(of->at, of->len, asked->track, form, from, out, room, answer);
    } else if (strcmp(asked->command, "extract") == 0) {
        mp4norm_extract_range(of->at, of->len, asked->track, from, out, room, answer);
    } else if (strcmp(asked->command, "normalise") == 0) {
        mp4norm_normal_range(of->at, of->len, asked->words, from, out, room, answer);
    } else if (strcmp(asked->command, "print") == 0) {
        mp4norm_print_range(of->at, of->len, asked->words, from, out, room, answer);
    } else {
        struct mp4norm_comparison how = {asked->words, asked->is_all ? MP4NORM_ALL : MP4NORM_FIRST, asked->limit, syntax};
        mp4norm_compare_range(of[0].at, of[0].len, of[1].at, of[1].len, &how, from, out, room, answer);
    }
}

/* Whether two answers about two files are one, whatever their texts are. */
static int is_same(const struct mp4norm_answer *one, const struct mp4norm_answer *other) {
    return one->status == other->status && one->kind == other->kind && one->box_type == other->box_type &&
           one->file == other->file && one->offset == other->offset;
}

/* The same question by a call that gives no text, or a short one, has the same answer. */
static void check_other_calls(const struct asked *asked, const struct bytes *of, const struct mp4norm_answer *answer,
                              uint64_t len) {
    struct mp4norm_answer again;
    uint8_t none;
    if (strcmp(asked->command, "normalise") == 0) {
        mp4norm_normal_len(of->at, of->len, asked->words, &again);
        if (!is_same(answer, &again) || again.len != len) fail("mp4norm_normal_len says otherwise", 70);
    } else if (strcmp(asked->command, "compare") == 0) {
        mp4norm_compare(of[0].at, of[0].len, of[1].at, of[1].len, asked->words, &none, 0, &again);
        if (!is_same(answer, &again) || again.len != 0) fail("mp4norm_compare says otherwise", 70);
    }
}

/* Puts the whole text, or says why there is none. */
static int put_text(const struct asked *asked, const struct bytes *of) {
    struct mp4norm_answer answer;
    uint8_t *text = NULL;
    uint64_t len = 0;
    size_t room = ROOM;
    do {
        text = realloc(text, len + room);
        if (text == NULL) fail("memory", 2);
        window(asked, of, len, text + len, room, &answer);
        if (answer.status != MP4NORM_DONE && answer.status != MP4NORM_DIFFER) break;
        len += answer.len;
        if (answer.len < room) break;
        room = len;
    } while (1);
    check_other_calls(asked, of, &answer, len);
    if (answer.status != MP4NORM_DONE && answer.status != MP4NORM_DIFFER) return said(stderr, asked, &answer);
    int is_new = asked->out != NULL && strcmp(asked->out, "-") != 0;
    int to = is_new ? open(asked->out, O_CREAT | O_EXCL | O_WRONLY | O_BINARY, 0666) : 1;
    if (to < 0) fail("write", 3);
    for (uint64_t at = 0; at < len;) {
        ssize_t count = write(to, text + at, (unsigned)(len - at < LONGEST ? len - at : LONGEST));
        if (count <= 0) fail("write", 3);
        at += (uint64_t)count;
    }
    return (int)answer.status;
}

/* The line of a sum, or why there is none. */
static int put_sum(const struct asked *asked, const struct bytes *of) {
    struct mp4norm_digest digest;
    struct mp4norm_answer answer;
    mp4norm_sum(of->at, of->len, asked->words, &digest, &answer);
    const char *before = "";
    if (asked->has_header) {
        fputs("# mp4norm sum: normal form 1, without ", stdout);
        for (int at = 0; at < WORD_COUNT; at++) {
            if (asked->words >> at & 1) printf("%s%s", before, WORDS[at]), before = ",";
        }
        puts(asked->words == 0 ? "nothing" : "");
    }
    if (answer.status != MP4NORM_DONE) return said(stderr, asked, &answer);
    for (int at = 0; at < 32; at++) printf("%02x", digest.bytes[at]);
    printf("  %s\n", asked->files[0]);
    return 0;
}

/* The verdict on a file. */
static int put_verdict(const struct asked *asked, const struct bytes *of) {
    struct mp4norm_answer answer;
    mp4norm_check(of->at, of->len, &answer);
    printf("%s: ", asked->files[0]);
    if (answer.status == MP4NORM_DONE) puts("accepted");
    return said(stdout, asked, &answer);
}

/* The flags of words that stand apart by commas. */
static uint32_t flags_of(char *words) {
    uint32_t flags = 0;
    for (char *word = strtok(words, ","); word != NULL; word = strtok(NULL, ",")) {
        uint32_t flag = 0;
        for (int at = 0; at < SET_COUNT; at++) flag |= strcmp(word, SETS[at].name) == 0 ? SETS[at].flags : 0;
        for (int at = 0; at < WORD_COUNT; at++) flag |= strcmp(word, WORDS[at]) == 0 ? UINT32_C(1) << at : 0;
        if (flag == 0) fail("unknown word", 64);
        flags |= flag;
    }
    return flags;
}

int main(int count, char **given) {
    struct asked asked = {.command = count > 1 ? given[1] : "boxes", .has_header = 0, .limit = 100};
    int is_sum = strcmp(asked.command, "sum") == 0;
    asked.has_header = is_sum;
#ifdef _WIN32
    _setmode(1, O_BINARY), _setmode(2, O_BINARY);
#endif
    for (int at = 2; at < count; at++) {
        char *word = given[at], *next = at + 1 < count ? given[at + 1] : "";
        if (strcmp(word, "--json") == 0) asked.is_json = 1;
        else if (strcmp(word, "--header") == 0) asked.has_header = 1;
        else if (strcmp(word, "--no-header") == 0) asked.has_header = 0;
        else if (strcmp(word, "--all") == 0) asked.is_all = 1;
        else if (strcmp(word, "--track") == 0) asked.track = (uint32_t)strtoul(next, NULL, 10), at++;
        else if (strcmp(word, "--limit") == 0) asked.limit = (uint32_t)strtoul(next, NULL, 10), at++;
        else if (strcmp(word, "--without") == 0) asked.words |= flags_of(next), at++;
        else if (strcmp(word, "--out") == 0) asked.out = next, at++;
        else if (asked.count < 2 && (word[0] != '-' || word[1] == '\0')) asked.files[asked.count++] = word;
        else fail("unknown word", 64);
    }
    if (asked.count == 0) asked.files[asked.count++] = "-";
    struct bytes of[2] = {open_file(asked.files[0]), {NULL, 0}};
    if (asked.count == 2) of[1] = open_file(asked.files[1]);
    if (is_sum) return put_sum(&asked, of);
    return strcmp(asked.command, "check") == 0 ? put_verdict(&asked, of) : put_text(&asked, of);
}
