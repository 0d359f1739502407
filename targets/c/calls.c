
/* What stands behind the module: the library's calls. Each begins a module, copies what it is given, and takes the answer. */
struct call {
    Z_mp4norm_instance_t module;
    bool lacks;
};

/* Of an answer: how many bytes it has in the module. */
enum { ANSWER = 32, DIGEST = 32, COMPARISON = 16, VERSION = 12 };

static void begin(struct call *call)
{
    init_globals(&call->module);
    init_memories(&call->module);
    call->lacks = call->module.w2c_memory.data == NULL;
}

/* The place of some new bytes in the module. */
static u64 room_for(struct call *call, size_t many)
{
    u64 at = !call->lacks && many < UINT32_MAX ? Z_mp4normZ_malloc(&call->module, many + (many == 0)) : 0;
    call->lacks = call->lacks || at == 0;
    return at;
}

/* The place of a copy of some bytes. */
static u64 put(struct call *call, const void *bytes, size_t many)
{
    u64 at = room_for(call, many);
    if (at != 0 && many != 0)
        memcpy(place(&call->module.w2c_memory, at, many), bytes, many);
    return at;
}

static void take(const struct call *call, u64 at, void *out, size_t many)
{
    if (many != 0)
        memcpy(out, place(&call->module.w2c_memory, at, many), many);
}

/* The answer at a place, or that there was no memory. */
static void end(struct call *call, u64 at, struct mp4norm_answer *answer)
{
    static const struct mp4norm_answer NONE = {MP4NORM_MEMORY, 0, 0, 0, 0, 0};
    const wasm_rt_memory_t *memory = &call->module.w2c_memory;
    *answer = NONE;
    if (!call->lacks) {
        answer->status = i32_load(memory, at);
        answer->kind = i32_load(memory, at + 4);
        answer->box_type = i32_load(memory, at + 8);
        answer->file = i32_load(memory, at + 12);
        answer->offset = i64_load(memory, at + 16);
        answer->len = i64_load(memory, at + 24);
    }
}

/* The same, and the bytes of a window. */
static void end_window(struct call *call, u64 at, u64 window, uint8_t *out, size_t out_len, struct mp4norm_answer *answer)
{
    end(call, at, answer);
    if ((answer->status == MP4NORM_DONE || answer->status == MP4NORM_DIFFER) && answer->len <= out_len)
        take(call, window, out, (size_t)answer->len);
    wasm_rt_free_memory(&call->module.w2c_memory);
}

void mp4norm_version(struct mp4norm_version *version)
{
    struct call call;
    begin(&call);
    u64 at = room_for(&call, VERSION);
    memset(version, 0, sizeof *version);
    if (!call.lacks) {
        Z_mp4normZ_mp4norm_version(&call.module, at);
        version->major = i32_load(&call.module.w2c_memory, at);
        version->minor = i32_load(&call.module.w2c_memory, at + 4);
        version->patch = i32_load(&call.module.w2c_memory, at + 8);
    }
    wasm_rt_free_memory(&call.module.w2c_memory);
}

void mp4norm_check(const uint8_t *file, size_t file_len, struct mp4norm_answer *answer)
{
    struct call call;
    begin(&call);
    u64 bytes = put(&call, file, file_len), said = room_for(&call, ANSWER);
    if (!call.lacks)
        Z_mp4normZ_mp4norm_check(&call.module, bytes, file_len, said);
    end(&call, said, answer);
    wasm_rt_free_memory(&call.module.w2c_memory);
}

void mp4norm_sum(const uint8_t *file, size_t file_len, uint32_t words, struct mp4norm_digest *digest,
                 struct mp4norm_answer *answer)
{
    struct call call;
    begin(&call);
    u64 bytes = put(&call, file, file_len), sum = room_for(&call, DIGEST), said = room_for(&call, ANSWER);
    if (!call.lacks)
        Z_mp4normZ_mp4norm_sum(&call.module, bytes, file_len, words, sum, said);
    end(&call, said, answer);
    if (answer->status == MP4NORM_DONE)
        take(&call, sum, digest->bytes, DIGEST);
    wasm_rt_free_memory(&call.module.w2c_memory);
}

void mp4norm_normal_len(const uint8_t *file, size_t file_len, uint32_t words, struct mp4norm_answer *answer)
{
    struct call call;
    begin(&call);
    u64 bytes = put(&call, file, file_len), said = room_for(&call, ANSWER);
    if (!call.lacks)
        Z_mp4normZ_mp4norm_normal_len(&call.module, bytes, file_len, words, said);
    end(&call, said, answer);
    wasm_rt_free_memory(&call.module.w2c_memory);
}

/* A call that puts a window of a text of one file: what it is asked, and how that is passed on. */
#define WORDS(...) __VA_ARGS__
#define WINDOW(name, asked, passed)                                                                                         \
    void name(const uint8_t *file, size_t file_len, asked uint64_t from, uint8_t *out, size_t out_len,                      \
              struct mp4norm_answer *answer)                                                                                \
    {                                                                                                                       \
        struct call call;                                                                                                   \
        begin(&call);                                                                                                       \
        u64 bytes = put(&call, file, file_len), window = room_for(&call, out_len), said = room_for(&call, ANSWER);          \
        if (!call.lacks)                                                                                                    \
            Z_mp4normZ_##name(&call.module, bytes, file_len, passed from, window, out_len, said);                           \
        end_window(&call, said, window, out, out_len, answer);                                                              \
    }

WINDOW(mp4norm_normal_range, WORDS(uint32_t words, ), WORDS(words, ))
WINDOW(mp4norm_print_range, WORDS(uint32_t words, ), WORDS(words, ))
WINDOW(mp4norm_show_range, , )
WINDOW(mp4norm_samples_range, WORDS(uint32_t track, uint32_t form, ), WORDS(track, form, ))
WINDOW(mp4norm_extract_range, WORDS(uint32_t track, ), WORDS(track, ))
WINDOW(mp4norm_boxes_range, WORDS(uint32_t syntax, ), WORDS(syntax, ))
WINDOW(mp4norm_fields_range, WORDS(uint32_t syntax, uint64_t rows, ), WORDS(syntax, rows, ))

void mp4norm_compare(const uint8_t *file, size_t file_len, const uint8_t *other, size_t other_len, uint32_t words,
                     uint8_t *out, size_t out_len, struct mp4norm_answer *answer)
{
    struct call call;
    begin(&call);
    u64 bytes = put(&call, file, file_len), others = put(&call, other, other_len);
    u64 window = room_for(&call, out_len), said = room_for(&call, ANSWER);
    if (!call.lacks)
        Z_mp4normZ_mp4norm_compare(&call.module, bytes, file_len, others, other_len, words, window, out_len, said);
    end_window(&call, said, window, out, out_len, answer);
}

void mp4norm_compare_range(const uint8_t *file, size_t file_len, const uint8_t *other, size_t other_len,
                           const struct mp4norm_comparison *asked, uint64_t from, uint8_t *out, size_t out_len,
                           struct mp4norm_answer *answer)
{
    struct call call;
    begin(&call);
    u64 bytes = put(&call, file, file_len), others = put(&call, other, other_len), how = room_for(&call, COMPARISON);
    u64 window = room_for(&call, out_len), said = room_for(&call, ANSWER);
    if (!call.lacks) {
        i32_store(&call.module.w2c_memory, how, asked->words);
        i32_store(&call.module.w2c_memory, how + 4, asked->listing);
        i32_store(&call.module.w2c_memory, how + 8, asked->limit);
        i32_store(&call.module.w2c_memory, how + 12, asked->syntax);
        Z_mp4normZ_mp4norm_compare_range(&call.module, bytes, file_len, others, other_len, how, from, window, out_len, said);
    }
    end_window(&call, said, window, out, out_len, answer);
}
