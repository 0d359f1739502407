/* mp4norm in one file of C, for any machine and compiler of C99: the library of mp4norm.h, which stands beside this file, and a
 * program with its calls for files in memory.
 *
 *     cc -O2 mp4norm.c -o mp4norm                      the program: ./mp4norm check movie.mp4
 *     cc -O2 -DMP4NORM_NO_MAIN -c mp4norm.c            the library, as an object
 *
 * It is made of the module for WebAssembly: most of it is what wasm2c (wabt) writes, between what stands here and what stands
 * behind it. Each call gives the module a memory of its own, and copies the file into it: up to 4 GB for the file and what is
 * said of it. A call wants 1 MB of stack. Not proved: wasm2c, the C compiler, and all of this but the module's own code. */
#include "mp4norm.h"
#include <errno.h>
#include <stdbool.h>
#include <stdint.h>
#include <stdio.h>
#include <stdlib.h>
#include <string.h>
#ifdef _WIN32
#include <fcntl.h>
#include <io.h>
#endif

typedef uint8_t u8;
typedef int8_t s8;
typedef uint16_t u16;
typedef int16_t s16;
typedef uint32_t u32;
typedef int32_t s32;
typedef uint64_t u64;
typedef int64_t s64;
typedef float f32;
typedef double f64;

/* The module's memory: bytes, with numbers in them the lowest byte first, whatever the machine has. */
typedef struct {
    u8 *data;
    u32 pages, max_pages;
    u64 size;
} wasm_rt_memory_t;

enum { PAGE = 65536 };

/* What no file and no words lead to: the module stops, and so does the program. */
#define UNREACHABLE abort()
#define FUNC_PROLOGUE
#define FUNC_EPILOGUE
#define LIKELY(x) (x)
#define UNLIKELY(x) (x)
#define wasm_rt_register_func_type(...) 0
#define wasm_rt_is_initialized() 1
#define assert(x) ((void)(x))

/* The place of some bytes of the memory. */
static inline u8 *place(const wasm_rt_memory_t *memory, u64 at, u64 many)
{
    if (at > memory->size || many > memory->size - at)
        abort();
    return memory->data + at;
}

/* Where there was no memory, there is nothing to fill. */
#define LOAD_DATA(memory, at, bytes, many) \
    ((memory).data == NULL ? (void)0 : (void)memcpy(place(&(memory), at, many), bytes, many))

static inline u16 two(const u8 *at)
{
    return (u16)(at[0] | at[1] << 8);
}

static inline u32 four(const u8 *at)
{
    return (u32)at[0] | (u32)at[1] << 8 | (u32)at[2] << 16 | (u32)at[3] << 24;
}

static inline u64 eight(const u8 *at)
{
    return (u64)four(at) | (u64)four(at + 4) << 32;
}

static inline void put_two(u8 *at, u64 value)
{
    at[0] = (u8)value;
    at[1] = (u8)(value >> 8);
}

static inline void put_four(u8 *at, u64 value)
{
    put_two(at, value);
    put_two(at + 2, value >> 16);
}

static inline void put_eight(u8 *at, u64 value)
{
    put_four(at, value);
    put_four(at + 4, value >> 32);
}

#define LOAD(name, result, signs, many, read)                          \
    static inline result name(const wasm_rt_memory_t *memory, u64 at)  \
    {                                                                  \
        return (result)(signs)read(place(memory, at, many));           \
    }
#define STORE(name, many, write)                                           \
    static inline void name(const wasm_rt_memory_t *memory, u64 at, u64 value) \
    {                                                                      \
        write(place(memory, at, many), value);                             \
    }
#define ONE(at) (*(at))
#define PUT_ONE(at, value) (*(at) = (u8)(value))

LOAD(i32_load, u32, u32, 4, four)
LOAD(i64_load, u64, u64, 8, eight)
LOAD(i32_load8_s, u32, s8, 1, ONE)
LOAD(i64_load8_s, u64, s8, 1, ONE)
LOAD(i32_load8_u, u32, u8, 1, ONE)
LOAD(i64_load8_u, u64, u8, 1, ONE)
LOAD(i32_load16_s, u32, s16, 2, two)
LOAD(i64_load16_s, u64, s16, 2, two)
LOAD(i32_load16_u, u32, u16, 2, two)
LOAD(i64_load16_u, u64, u16, 2, two)
LOAD(i64_load32_s, u64, s32, 4, four)
LOAD(i64_load32_u, u64, u32, 4, four)
STORE(i32_store, 4, put_four)
STORE(i64_store, 8, put_eight)
STORE(i32_store8, 1, PUT_ONE)
STORE(i64_store8, 1, PUT_ONE)
STORE(i32_store16, 2, put_two)
STORE(i64_store16, 2, put_two)
STORE(i64_store32, 4, put_four)

static inline u64 i64_reinterpret_f64(f64 value)
{
    u64 bits;
    memcpy(&bits, &value, sizeof bits);
    return bits;
}

static inline f64 f64_reinterpret_i64(u64 bits)
{
    f64 value;
    memcpy(&value, &bits, sizeof value);
    return value;
}

static inline f64 f64_load(const wasm_rt_memory_t *memory, u64 at)
{
    return f64_reinterpret_i64(i64_load(memory, at));
}

static inline void f64_store(const wasm_rt_memory_t *memory, u64 at, f64 value)
{
    i64_store(memory, at, i64_reinterpret_f64(value));
}

static inline void memory_fill(const wasm_rt_memory_t *memory, u32 at, u32 value, u32 many)
{
    memset(place(memory, at, many), (int)(value & 0xff), many);
}

static inline void memory_copy(const wasm_rt_memory_t *to, const wasm_rt_memory_t *from, u32 at, u32 source, u32 many)
{
    const u8 *bytes = place(from, source, many);
    memmove(place(to, at, many), bytes, many);
}

#define DIV_U(x, y) ((y) == 0 ? (abort(), (u64)0) : (x) / (y))
#define REM_U(x, y) ((y) == 0 ? (abort(), (u64)0) : (x) % (y))
#define ROTATED(x, left, mask) (((x) << ((left) & (mask))) | ((x) >> ((0 - (left)) & (mask))))
#define I32_ROTL(x, y) ROTATED(x, y, 31)
#define I32_ROTR(x, y) ROTATED(x, 0 - (y), 31)
#define I64_ROTL(x, y) ROTATED(x, y, 63)
#define I64_ROTR(x, y) ROTATED(x, 0 - (y), 63)

/* How many zero bits stand in front, and behind. */
static inline u64 I64_CLZ(u64 x)
{
    u64 count = 0;
    if (x == 0)
        return 64;
    for (int step = 32; step > 0; step /= 2)
        if (x >> (64 - step) == 0) {
            x <<= step;
            count += (u64)step;
        }
    return count;
}

static inline u64 I64_CTZ(u64 x)
{
    return x == 0 ? 64 : 63 - I64_CLZ(x & (0 - x));
}

static inline u32 I32_CTZ(u32 x)
{
    return x == 0 ? 32 : (u32)I64_CTZ(x);
}

/* The module begins with zeros; where there is no memory, with none at all. */
static void wasm_rt_allocate_memory(wasm_rt_memory_t *memory, u32 pages, u32 most)
{
    memory->data = calloc(pages, PAGE);
    memory->pages = memory->data == NULL ? 0 : pages;
    memory->max_pages = most;
    memory->size = (u64)memory->pages * PAGE;
}

/* More pages, of zeros; the number of those of before, or -1 where there are no more. */
static u32 wasm_rt_grow_memory(wasm_rt_memory_t *memory, u32 more)
{
    u32 before = memory->pages;
    u64 pages = (u64)before + more;
    if (pages > memory->max_pages || pages * PAGE > SIZE_MAX)
        return (u32)-1;
    u8 *data = realloc(memory->data, (size_t)(pages * PAGE));
    if (data == NULL)
        return (u32)-1;
    memset(data + memory->size, 0, (size_t)(pages * PAGE - memory->size));
    memory->data = data;
    memory->pages = (u32)pages;
    memory->size = pages * PAGE;
    return before;
}

static void wasm_rt_free_memory(wasm_rt_memory_t *memory)
{
    free(memory->data);
}
