/* mp4norm as a C library: what MP4 files (ISO/IEC 14496-12 and -14) say, of bytes in memory.
 *
 * No call keeps anything: each is a function of its arguments, and several threads may call at
 * once. What a call answers is proved (docs/LIBRARY.md), for every file and every number that it is
 * given. What a caller owes, nothing checks:
 *   - at each pointer as many readable bytes as the length beside it says, and a pointer that is
 *     not null where the length is 0 too;
 *   - what a call writes (out, digest, answer) is writable, and apart from all else that it gets;
 *   - nobody writes the file while a call runs, nor cuts one that is mapped (SIGBUS);
 *   - malloc, realloc and free are of one allocator;
 *   - 256 KB of stack; no call from a signal handler. */
#ifndef MP4NORM_H
#define MP4NORM_H

#include <stddef.h>
#include <stdint.h>

#ifdef __cplusplus
extern "C" {
#endif

/* What a call comes to. */
enum mp4norm_status {
    MP4NORM_DONE = 0,      /* there is an answer */
    MP4NORM_REFUSED = 1,   /* the file has a fault: kind, box_type and offset say which is its first */
    MP4NORM_MEMORY = 2,    /* an allocation was refused */
    MP4NORM_DEVICE = 3,    /* a read or write failed: never, of bytes in memory */
    MP4NORM_NO_TRACK = 4,  /* no track has this ID */
    MP4NORM_DIFFER = 5,    /* the files differ: only a comparison answers this */
    MP4NORM_USAGE = 64     /* words, a form, a syntax or a listing that is not known: no file was looked at */
};

/* Kinds of fault (docs/FORMAT.md says what each means). */
enum mp4norm_kind {
    MP4NORM_SHORT_HEADER = 1,
    MP4NORM_BAD_SIZE = 2,
    MP4NORM_OVERRUN = 3,
    MP4NORM_SHORT_BOX = 4,
    MP4NORM_BOX_NOT_IN_PROFILE = 5,
    MP4NORM_DUPLICATE_BOX = 6,
    MP4NORM_MISSING_BOX = 7,
    MP4NORM_BAD_VERSION = 8,
    MP4NORM_BAD_FLAGS = 9,
    MP4NORM_BAD_VALUE = 10,
    MP4NORM_OUTSIDE_DATA = 11,
    MP4NORM_COUNT_MISMATCH = 12,
    MP4NORM_BAD_ORDER = 13,
    MP4NORM_BAD_DESCRIPTION_INDEX = 14,
    MP4NORM_SAMPLE_OUTSIDE_FILE = 15,
    MP4NORM_UNKNOWN_TRACK = 16,
    MP4NORM_GAP = 17,
    MP4NORM_OFFSET_TOO_LARGE = 18,
    MP4NORM_ITEM_LOCATION = 19,
    MP4NORM_TOO_MANY_SAMPLES = 20,
    MP4NORM_TIME_TOO_LARGE = 21,
    MP4NORM_MOVIE_TOO_LARGE = 22,
    MP4NORM_FRAGMENT_BEFORE_MOVIE = 23
};

/* What a call answers. */
struct mp4norm_answer {
    uint32_t status;   /* of enum mp4norm_status */
    uint32_t kind;     /* of enum mp4norm_kind; 0 without a fault */
    uint32_t box_type; /* of the box at fault, its first byte highest: 0x6d6f6f76 is `moov`; `file` for the file */
    uint32_t file;     /* of two files that are compared the one at fault: 0 is the first, 1 the second; else 0 */
    uint64_t offset;   /* the place in the file of that box's first byte */
    uint64_t len;      /* how many bytes were put, or are there */
};

/* A digest under SHA-256 (FIPS 180-4). */
struct mp4norm_digest {
    uint8_t bytes[32];
};

/* What is left out of a file before it is normalised, printed, summed or compared: the words behind --without
 * (docs/COMPARING.md). Together by |; 0 leaves nothing out. */
enum mp4norm_word {
    MP4NORM_TIMES = 1,      /* creation and modification times */
    MP4NORM_EDITS = 2,      /* edit lists */
    MP4NORM_FLAGS = 4,      /* all flags of samples but sample_is_non_sync_sample */
    MP4NORM_GROUPS = 8,     /* sample groups */
    MP4NORM_METADATA = 16,  /* udta, meta, iods */
    MP4NORM_BITRATES = 32,  /* bit rates and sizes of buffers in sample descriptions */
    MP4NORM_ENDS = 64,      /* durations of a track's first and last sample */
    MP4NORM_ORIGINS = 128,  /* where a track begins */
    MP4NORM_LABELS = 256,   /* names of handlers and compressors */
    MP4NORM_TIMING = 512,   /* when samples are decoded and shown */
    MP4NORM_ROLES = 1024,   /* flags of tracks but "track enabled", layers, alternate groups */
    MP4NORM_IDS = 2048,     /* which IDs tracks have */
    MP4NORM_TIMESCALES = 4096, /* in which timescales times are said */
    MP4NORM_LEAD_INS = 8192,   /* how tracks begin, but for how long each waits; origins go too */
    /* Sets of these, which never change. What changes when a file is packed another way: times, flags,
     * groups, metadata, bit rates, ends, roles, IDs, timescales, lead-ins; and these and labels. */
    MP4NORM_PACKAGING_2 = 15485,
    MP4NORM_MEDIA_2 = 15741,
    /* The first eight words, and the first ten: these hide the step between sound and pictures. */
    MP4NORM_PACKAGING_1 = 255,
    MP4NORM_MEDIA_1 = 1023
};

/* How samples are listed. */
enum mp4norm_form {
    MP4NORM_PLAIN = 0, /* a line each: number dts cts duration flags description size */
    MP4NORM_NAMED = 1, /* the same behind a line with the names of the columns */
    MP4NORM_OBJECTS = 2 /* an object of JSON a line */
};

/* How boxes are listed. */
enum mp4norm_syntax {
    MP4NORM_LINES = 0, /* two spaces for each container, type, offset, size */
    MP4NORM_JSON = 1   /* an object of JSON a line */
};

/* What of a comparison is told. */
enum mp4norm_listing {
    MP4NORM_FIRST = 0, /* the first difference alone */
    MP4NORM_ALL = 1,   /* all differences, and a line or an object that counts them, as --all */
    /* The same, as --align: first how tracks lie beside each other, which `limit` does not count, and
     * then samples only of tracks that have the same number of them in both files (since 0.3.0; a
     * library of before answers MP4NORM_USAGE). */
    MP4NORM_ALIGNED = 2
};

/* What is asked of a comparison. */
struct mp4norm_comparison {
    uint32_t words;   /* of enum mp4norm_word: what is left out of both files */
    uint32_t listing; /* of enum mp4norm_listing */
    uint32_t limit;   /* of all differences at most so many are listed, as --limit; they are counted all the same */
    uint32_t syntax;  /* of enum mp4norm_syntax */
};

/* The version of a library, that of the program of the same sources. */
struct mp4norm_version {
    uint32_t major;
    uint32_t minor;
    uint32_t patch;
};

/* The version of the library that is called. */
void mp4norm_version(struct mp4norm_version *version);

/* Whether a file has a normal form: MP4NORM_DONE, MP4NORM_REFUSED or MP4NORM_MEMORY. */
void mp4norm_check(const uint8_t *file, size_t file_len, struct mp4norm_answer *answer);

/* The SHA-256 of the normal form of what is left of a file. Without an answer *digest stays as it
 * is. MP4NORM_REFUSED too where what is left is too long for its fields (TIME_TOO_LARGE,
 * OFFSET_TOO_LARGE at a `tkhd`); with MP4NORM_LEAD_INS also where the movie passes a limit once its
 * edits say how long its tracks wait (TIME_TOO_LARGE, MOVIE_TOO_LARGE); the calls that print and
 * compare refuse it then too. */
void mp4norm_sum(const uint8_t *file, size_t file_len, uint32_t words, struct mp4norm_digest *digest,
                 struct mp4norm_answer *answer);

/* How many bytes the normal form has of what is left of a file, in answer->len. It takes as long as
 * to put it, and less memory. Refusals as of mp4norm_sum. */
void mp4norm_normal_len(const uint8_t *file, size_t file_len, uint32_t words,
                        struct mp4norm_answer *answer);

/* Each of the next calls puts the bytes of a text from the place `from` on into `out`, at most
 * out_len of them, and says in answer->len how many: fewer than out_len only at the text's end, 0
 * where `from` lies behind it. The rest of `out` stays as it was, and all of it where the status is
 * not MP4NORM_DONE. Each call goes over the file, and makes the text, again: whoever wants a long
 * text whole gives a buffer that holds it. */

/* The normal form of what is left of a file: a fragmented MP4 file. Refusals as of mp4norm_sum. */
void mp4norm_normal_range(const uint8_t *file, size_t file_len, uint32_t words, uint64_t from,
                          uint8_t *out, size_t out_len, struct mp4norm_answer *answer);

/* What is left of a file as text: a line for each value and sample, as `mp4norm print`. */
void mp4norm_print_range(const uint8_t *file, size_t file_len, uint32_t words, uint64_t from,
                         uint8_t *out, size_t out_len, struct mp4norm_answer *answer);

/* One line of JSON: tracks with codecs, durations, edits and counts, as `mp4norm show`. */
void mp4norm_show_range(const uint8_t *file, size_t file_len, uint64_t from, uint8_t *out,
                        size_t out_len, struct mp4norm_answer *answer);

/* The samples of the track with this ID, in a form of enum mp4norm_form, as `mp4norm samples`;
 * MP4NORM_NO_TRACK where there is none. */
void mp4norm_samples_range(const uint8_t *file, size_t file_len, uint32_t track, uint32_t form,
                           uint64_t from, uint8_t *out, size_t out_len,
                           struct mp4norm_answer *answer);

/* The bytes of the samples of the track with this ID, one after the other, as `mp4norm extract`;
 * MP4NORM_NO_TRACK where there is none. */
void mp4norm_extract_range(const uint8_t *file, size_t file_len, uint32_t track, uint64_t from,
                           uint8_t *out, size_t out_len, struct mp4norm_answer *answer);

/* The boxes of a file, whatever their types, in a syntax of enum mp4norm_syntax, as `mp4norm boxes`:
 * refused only for a header that is broken. */
void mp4norm_boxes_range(const uint8_t *file, size_t file_len, uint32_t syntax, uint64_t from,
                         uint8_t *out, size_t out_len, struct mp4norm_answer *answer);

/* The same, with the fields of each box by their names in the standard, and at most so many of its rows,
 * as `mp4norm boxes --fields --rows N`. */
void mp4norm_fields_range(const uint8_t *file, size_t file_len, uint32_t syntax, uint64_t rows,
                          uint64_t from, uint8_t *out, size_t out_len,
                          struct mp4norm_answer *answer);

/* Whether the same is left of two files: MP4NORM_DONE if it is, and MP4NORM_DIFFER if not. Then the line
 * of the first difference, as `mp4norm compare`, is put into `out`, at most out_len bytes of it, which
 * may be 0; answer->len says how many. MP4NORM_REFUSED if a file has no normal form: answer->file says
 * which. The two may be the same bytes. MP4NORM_MEMORY too where there is no memory for what is said. */
void mp4norm_compare(const uint8_t *file, size_t file_len, const uint8_t *other, size_t other_len,
                     uint32_t words, uint8_t *out, size_t out_len, struct mp4norm_answer *answer);

/* The same, of what is asked: all that `mp4norm compare` prints, as lines or as JSON, from the place
 * `from` on, as the calls above put a text, at MP4NORM_DIFFER too. Of files of which the same is left
 * there is a text only where all is told as JSON. It is made whole in memory: for up to 2^20
 * differences. */
void mp4norm_compare_range(const uint8_t *file, size_t file_len, const uint8_t *other,
                           size_t other_len, const struct mp4norm_comparison *asked, uint64_t from,
                           uint8_t *out, size_t out_len, struct mp4norm_answer *answer);

#ifdef __cplusplus
}
#endif
#endif
