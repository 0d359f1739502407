
/* The program: commands of mp4norm on files that are read whole, or on standard input. */
#ifndef MP4NORM_NO_MAIN
static const char USAGE[] =
    "usage: mp4norm COMMAND [OPTIONS] FILE..\n"
    "\n"
    "  check FILE..                      whether each has a normal form\n"
    "  sum [--no-header] FILE..          the SHA-256 of each normal form\n"
    "  compare [--all | --align] [--limit N] [--json] FILE OTHER\n"
    "  normalise, print, show FILE       the normal form, its text, the tracks\n"
    "  samples [--header | --json] --track ID FILE\n"
    "  extract --track ID FILE           the bytes of the samples\n"
    "  boxes [--fields] [--rows N] [--json] FILE\n"
    "\n"
    "--without WORDS leaves out of the first five but check; --out NEW writes a new file. `-` is standard input, or output.\n"
    "Made of mp4norm's module for WebAssembly: files of up to 4 GB with what is said of them.\n";

static const char *const KINDS[] = {
    "", "ShortHeader", "BadSize", "Overrun", "ShortBox", "BoxNotInProfile", "DuplicateBox", "MissingBox", "BadVersion",
    "BadFlags", "BadValue", "OutsideData", "CountMismatch", "BadOrder", "BadDescriptionIndex", "SampleOutsideFile",
    "UnknownTrack", "Gap", "OffsetTooLarge", "ItemLocation", "TooManySamples", "TimeTooLarge", "MovieTooLarge",
    "FragmentBeforeMovie"};
/* What can be left out, by its bit; and sets of that. */
static const char *const WORD_NAMES[] = {"times", "edits", "flags", "groups", "metadata", "bitrates", "ends", "origins",
                                         "labels", "timing", "roles", "ids", "timescales", "lead-ins"};
static const struct {
    const char *name;
    uint32_t flags;
} SETS[] = {{"packaging-2", MP4NORM_PACKAGING_2}, {"media-2", MP4NORM_MEDIA_2},
            {"packaging-1", MP4NORM_PACKAGING_1}, {"media-1", MP4NORM_MEDIA_1}};
enum { WORD_COUNT = sizeof WORD_NAMES / sizeof *WORD_NAMES, SET_COUNT = sizeof SETS / sizeof *SETS, FIRST_ROOM = 65536 };
enum { STORE_FAILED = 3, WRITE_FAILED = 3 };

struct asked {
    const char *command, *out;
    bool is_json, has_header, is_all, aligns, has_fields;
    uint32_t track, words, limit;
    uint64_t rows;
};

struct bytes {
    uint8_t *at;
    size_t len;
};

static int told(const char *what, int status)
{
    fprintf(stderr, "failed: %s\n", what);
    return status;
}

static int wrong(const char *what, const char *word)
{
    fprintf(stderr, "%s: %s\n\n%s", what, word, USAGE);
    return MP4NORM_USAGE;
}

static bool is(const char *word, const char *other)
{
    return strcmp(word, other) == 0;
}

/* Texts of Windows are no texts here. */
static FILE *untranslated(FILE *file)
{
#ifdef _WIN32
    _setmode(_fileno(file), _O_BINARY);
#endif
    return file;
}

/* Whether a file says that it is longer than what a module can hold. */
static bool is_too_long(FILE *from)
{
    bool has_end = fseek(from, 0, SEEK_END) == 0;
    long len = has_end ? ftell(from) : 0;
    rewind(from);
    return len > 0 && (unsigned long)len / 2 > UINT32_MAX / 2;
}

/* All bytes of a file; a status where they aren't to be had. */
static int read_whole(const char *name, struct bytes *file)
{
    FILE *from = is(name, "-") ? untranslated(stdin) : fopen(name, "rb");
    size_t room = FIRST_ROOM;
    file->len = 0;
    file->at = from != NULL && from != stdin && is_too_long(from) ? NULL : malloc(room);
    while (from != NULL && file->at != NULL) {
        file->len += fread(file->at + file->len, 1, room - file->len, from);
        if (file->len < room)
            break;
        uint8_t *more = room > UINT32_MAX / 2 || room > SIZE_MAX / 2 ? NULL : realloc(file->at, room *= 2);
        if (more == NULL)
            free(file->at);
        file->at = more;
    }
    bool is_read = from != NULL && !ferror(from);
    if (from != NULL && from != stdin)
        fclose(from);
    return file->at == NULL ? MP4NORM_MEMORY : is_read ? 0 : STORE_FAILED;
}

/* The line of a fault. */
static void put_fault(FILE *to, const struct mp4norm_answer *answer)
{
    char type[9];
    bool is_plain = true;
    for (int at = 0; at < 4; at++) {
        type[at] = (char)(answer->box_type >> (24 - 8 * at) & 0xff);
        is_plain = is_plain && type[at] > 31 && type[at] < 127;
    }
    type[4] = 0;
    if (!is_plain)
        snprintf(type, sizeof type, "%08lx", (unsigned long)answer->box_type);
    fprintf(to, "refused: %s in %s at %llu\n", KINDS[answer->kind], type, (unsigned long long)answer->offset);
}

/* What is said where there is no text, with its status. */
static int refused(FILE *to, const char *name, const struct mp4norm_answer *answer)
{
    if (name != NULL)
        fprintf(to, "%s: ", name);
    if (answer->status == MP4NORM_REFUSED)
        put_fault(to, answer);
    else
        fputs(answer->status == MP4NORM_MEMORY ? "failed: memory\n"
              : answer->status == MP4NORM_NO_TRACK ? "failed: no such track\n" : "failed: store\n", to);
    return (int)answer->status;
}

/* The window of the text that is asked for. */
static void ask(const struct asked *asked, const struct bytes *of, uint8_t *out, size_t room, struct mp4norm_answer *answer)
{
    uint32_t syntax = asked->is_json ? MP4NORM_JSON : MP4NORM_LINES;
    if (is(asked->command, "boxes") && asked->has_fields)
        mp4norm_fields_range(of->at, of->len, syntax, asked->rows, 0, out, room, answer);
    else if (is(asked->command, "boxes"))
        mp4norm_boxes_range(of->at, of->len, syntax, 0, out, room, answer);
    else if (is(asked->command, "show"))
        mp4norm_show_range(of->at, of->len, 0, out, room, answer);
    else if (is(asked->command, "samples"))
        mp4norm_samples_range(of->at, of->len, asked->track,
                              asked->is_json ? MP4NORM_OBJECTS : asked->has_header ? MP4NORM_NAMED : MP4NORM_PLAIN, 0, out,
                              room, answer);
    else if (is(asked->command, "extract"))
        mp4norm_extract_range(of->at, of->len, asked->track, 0, out, room, answer);
    else if (is(asked->command, "normalise"))
        mp4norm_normal_range(of->at, of->len, asked->words, 0, out, room, answer);
    else if (is(asked->command, "print"))
        mp4norm_print_range(of->at, of->len, asked->words, 0, out, room, answer);
    else {
        uint32_t listing = asked->aligns ? MP4NORM_ALIGNED : asked->is_all ? MP4NORM_ALL : MP4NORM_FIRST;
        struct mp4norm_comparison how = {asked->words, listing, asked->limit, syntax};
        mp4norm_compare_range(of[0].at, of[0].len, of[1].at, of[1].len, &how, 0, out, room, answer);
    }
}

/* Writes a text to standard output, or to a new file. */
static int write_text(const char *name, const uint8_t *text, size_t len)
{
    bool is_new = name != NULL && !is(name, "-");
    FILE *there = is_new ? fopen(name, "rb") : NULL;
    if (there != NULL) {
        fclose(there);
        return told("write", WRITE_FAILED);
    }
    FILE *to = is_new ? fopen(name, "wb") : untranslated(stdout);
    bool is_written = to != NULL && fwrite(text, 1, len, to) == len && fflush(to) == 0;
    if (is_new && to != NULL)
        is_written = fclose(to) == 0 && is_written;
    return is_written ? 0 : told("write", WRITE_FAILED);
}

/* Puts the whole text, for which there is room enough at the second or third time; or says why there is none. */
static int put_text(const struct asked *asked, const struct bytes *of, const char *const *names)
{
    struct mp4norm_answer answer;
    uint8_t *text = NULL;
    for (size_t room = FIRST_ROOM;; room *= 4) {
        text = room > UINT32_MAX / 8 ? NULL : malloc(room);
        if (text == NULL)
            return told("memory", MP4NORM_MEMORY);
        ask(asked, of, text, room, &answer);
        if ((answer.status != MP4NORM_DONE && answer.status != MP4NORM_DIFFER) || answer.len < room)
            break;
        free(text);
    }
    int status = (int)answer.status;
    if (status == MP4NORM_DONE || status == MP4NORM_DIFFER) {
        int written = write_text(asked->out, text, (size_t)answer.len);
        status = written != 0 ? written : status;
    } else {
        status = refused(stderr, is(asked->command, "compare") ? names[answer.file] : NULL, &answer);
    }
    free(text);
    return status;
}

/* The verdict on a file, or its sum. */
static int put_line(const struct asked *asked, const char *name)
{
    struct bytes file;
    struct mp4norm_digest digest;
    struct mp4norm_answer answer = {0, 0, 0, 0, 0, 0};
    bool is_sum = is(asked->command, "sum");
    answer.status = (uint32_t)read_whole(name, &file);
    if (answer.status == 0 && is_sum)
        mp4norm_sum(file.at, file.len, asked->words, &digest, &answer);
    else if (answer.status == 0)
        mp4norm_check(file.at, file.len, &answer);
    free(file.at);
    if (answer.status != 0)
        return refused(is_sum ? stderr : stdout, name, &answer);
    for (int at = 0; is_sum && at < 32; at++)
        printf("%02x", digest.bytes[at]);
    printf(is_sum ? "  %s\n" : "%s: accepted\n", name);
    return 0;
}

static void put_header(uint32_t words)
{
    const char *before = "";
    fputs("# mp4norm sum: normal form 1, without ", stdout);
    for (int at = 0; at < WORD_COUNT; at++)
        if (words >> at & 1) {
            printf("%s%s", before, WORD_NAMES[at]);
            before = ",";
        }
    puts(words == 0 ? "nothing" : "");
}

/* Adds the flags of words that stand apart by commas. */
static bool add_words(const char *list, uint32_t *flags)
{
    for (const char *word = list;; word++) {
        size_t len = strcspn(word, ",");
        uint32_t found = 0;
        for (int at = 0; at < SET_COUNT; at++)
            if (strlen(SETS[at].name) == len && strncmp(word, SETS[at].name, len) == 0)
                found |= SETS[at].flags;
        for (int at = 0; at < WORD_COUNT; at++)
            if (strlen(WORD_NAMES[at]) == len && strncmp(word, WORD_NAMES[at], len) == 0)
                found |= UINT32_C(1) << at;
        if (found == 0)
            return false;
        *flags |= found;
        word += len;
        if (*word == 0)
            return true;
    }
}

/* A whole number of at most some size, in digits alone. */
static bool is_number(const char *word, uint64_t most, uint64_t *number)
{
    *number = 0;
    for (const char *at = word; *at != 0; at++) {
        if (*at < '0' || *at > '9' || *number > (most - (uint64_t)(*at - '0')) / 10)
            return false;
        *number = *number * 10 + (uint64_t)(*at - '0');
    }
    return *word != 0;
}

/* Takes an option that has a value; false where it is none, or the value is wrong. */
static bool take_value(struct asked *asked, const char *word, const char *value, bool *has_track)
{
    uint64_t number = 0;
    if (is(word, "--out"))
        asked->out = value;
    else if (is(word, "--without"))
        return add_words(value, &asked->words);
    else if (is(word, "--track") && is_number(value, UINT32_MAX, &number)) {
        asked->track = (uint32_t)number;
        *has_track = true;
    } else if (is(word, "--limit") && is_number(value, UINT32_MAX, &number))
        asked->limit = (uint32_t)number;
    else
        return is(word, "--rows") && is_number(value, UINT64_MAX, &asked->rows);
    return true;
}

static bool take_flag(struct asked *asked, const char *word)
{
    bool *flag = is(word, "--json") ? &asked->is_json : is(word, "--all") ? &asked->is_all
                 : is(word, "--align") ? &asked->aligns : is(word, "--fields") ? &asked->has_fields
                 : is(word, "--header") || is(word, "--no-header") ? &asked->has_header : NULL;
    if (flag != NULL)
        *flag = !is(word, "--no-header");
    return flag != NULL;
}

/* Does what is asked of so many files. */
static int perform(const struct asked *asked, const char **names, int count, bool has_track)
{
    static const char *const ALONE[] = {"boxes", "show", "samples", "extract", "normalise", "print"};
    bool is_of_lines = is(asked->command, "check") || is(asked->command, "sum"), is_known = is(asked->command, "compare");
    for (size_t at = 0; at < sizeof ALONE / sizeof *ALONE; at++)
        is_known = is_known || is(asked->command, ALONE[at]);
    if (!is_known && !is_of_lines)
        return wrong("unknown command", asked->command);
    if ((is(asked->command, "samples") || is(asked->command, "extract")) && !has_track)
        return wrong("wanted", "--track ID");
    if (!is_of_lines && count != (is(asked->command, "compare") ? 2 : 1))
        return wrong("files of this command", is(asked->command, "compare") ? "two" : "one");
    int status = 0;
    if (is_of_lines) {
        if (is(asked->command, "sum") && asked->has_header)
            put_header(asked->words);
        for (int at = 0; at < count; at++) {
            int one = put_line(asked, names[at]);
            status = one > status ? one : status;
        }
        return fflush(stdout) == 0 && !ferror(stdout) ? status : told("write", WRITE_FAILED);
    }
    struct bytes of[2] = {{NULL, 0}, {NULL, 0}};
    for (int at = 0; at < count && status == 0; at++)
        status = read_whole(names[at], &of[at]);
    status = status == 0 ? put_text(asked, of, names) : told(status == MP4NORM_MEMORY ? "memory" : "store", status);
    free(of[0].at);
    free(of[1].at);
    return status;
}

int main(int count, char **words)
{
    struct asked asked = {.command = count > 1 ? words[1] : "boxes", .limit = 100, .rows = 16};
    const char *input = "-", **names = calloc((size_t)count + 1, sizeof *names);
    int files = 0;
    bool has_track = false;
    if (names == NULL)
        return told("memory", MP4NORM_MEMORY);
    if (is(asked.command, "--help") || is(asked.command, "--version")) {
        struct mp4norm_version version;
        mp4norm_version(&version);
        printf("mp4norm %lu.%lu.%lu, in C\n%s", (unsigned long)version.major, (unsigned long)version.minor,
               (unsigned long)version.patch, is(asked.command, "--help") ? USAGE : "");
        free(names);
        return 0;
    }
    asked.has_header = is(asked.command, "sum");
    untranslated(stdout);
    for (int at = 2; at < count; at++) {
        const char *word = words[at];
        if (word[0] != '-' || word[1] == 0)
            names[files++] = word;
        else if (!take_flag(&asked, word) &&
                 (++at >= count || !take_value(&asked, word, words[at], &has_track))) {
            free(names);
            return wrong("unknown word, or value", word);
        }
    }
    if (files == 0)
        names[files++] = input;
    int status = perform(&asked, names, files, has_track);
    free(names);
    return status;
}
#endif
