/* malloc, realloc and free of the WebAssembly module, whose memory grows at its end. Not proved.
 *
 * Before each block stands how long it is, its head with it. A short block has one of the lengths of 5, 6, 7 or 8 times a
 * power of two, and a list for each length keeps those that are free. Long blocks that are free stand in one list by their
 * places, are joined with those beside them, and go back to the end where they touch it. */
typedef unsigned long size;

enum { HEAD = 16, PAGE = 65536, LONG = 1 << 20, LENGTHS = 80 };
/* More than this nobody gets: no sum of lengths below overflows. */
#define MOST ((size)1 << 40)

struct block {
    size length;
    struct block *next; /* of a free one */
};

extern char __heap_base;
static struct block *shorts[LENGTHS], *longs;
/* Where the room begins that no block has had, or has given back; and where the memory ends. */
static size top, end;

/* The number of the least length that has room for so many bytes, and that length. */
static int number_of(size many)
{
    int high = 63 - __builtin_clzl(many - 1);
    return 4 * high + (int)((many - 1) >> (high - 2) & 3);
}

static size length_of(int number)
{
    return (size)(number % 4 + 5) << (number / 4 - 2);
}

/* The length of a block for so many bytes. */
static size length_for(size many)
{
    size whole = (many + HEAD + 15) & ~(size)15;
    if (whole < 32)
        whole = 32;
    return whole <= LONG ? length_of(number_of(whole)) : (whole + PAGE - 1) & ~(size)(PAGE - 1);
}

/* Makes the memory longer. A module with addresses of 32 bits may say in 32 bits that it couldn't. */
static int grow(size pages)
{
    if (__builtin_wasm_memory_grow(0, pages) >= 0xffffffff)
        return 0;
    end += pages * PAGE;
    return 1;
}

/* Whether the memory goes so far, or could be made to. Engines take long for each time, so it grows by an eighth at least,
 * where it can. */
static int reaches(size place)
{
    if (!top) {
        top = ((size)&__heap_base + 15) & ~(size)15;
        end = __builtin_wasm_memory_size(0) * PAGE;
        place += top;
    }
    if (place <= end)
        return 1;
    size least = (place - end + PAGE - 1) / PAGE, some = end / PAGE / 8 + 16;
    return (least < some && grow(some)) || grow(least);
}

/* A block at the end; none where there is no room. */
static struct block *at_the_end(size length)
{
    if (!reaches(top + length))
        return 0;
    struct block *block = (struct block *)top;
    top += length;
    block->length = length;
    return block;
}

/* The first long block with so much room, or none. What it has beyond that stays in the list, if it is long itself. */
static struct block *first_long(size length)
{
    for (struct block **at = &longs; *at; at = &(*at)->next) {
        struct block *block = *at;
        if (block->length < length)
            continue;
        if (block->length - length > LONG) {
            struct block *rest = (struct block *)((size)block + length);
            rest->length = block->length - length;
            rest->next = block->next;
            *at = rest;
            block->length = length;
        } else {
            *at = block->next;
        }
        return block;
    }
    return 0;
}

/* Puts a long block into the list, joined with its neighbours; or gives it back to the end. */
static void put_long(struct block *block)
{
    struct block **at = &longs, *before = 0, **at_before = 0;
    while (*at && *at < block) {
        at_before = at;
        before = *at;
        at = &before->next;
    }
    struct block *after = *at;
    if (after && (size)block + block->length == (size)after) {
        block->length += after->length;
        after = after->next;
    }
    block->next = after;
    *at = block;
    if (before && (size)before + before->length == (size)block) {
        before->length += block->length;
        before->next = after;
        block = before;
        at = at_before;
    }
    if ((size)block + block->length == top) {
        *at = 0;
        top = (size)block;
    }
}

void *malloc(size many)
{
    if (many > MOST)
        return 0;
    size length = length_for(many);
    struct block *block = 0;
    if (length > LONG) {
        block = first_long(length);
    } else if ((block = shorts[number_of(length)])) {
        shorts[number_of(length)] = block->next;
    }
    if (!block)
        block = at_the_end(length);
    return block ? (char *)block + HEAD : 0;
}

void free(void *bytes)
{
    if (!bytes)
        return;
    struct block *block = (struct block *)((char *)bytes - HEAD);
    if (block->length > LONG) {
        put_long(block);
    } else {
        int number = number_of(block->length);
        block->next = shorts[number];
        shorts[number] = block;
    }
}

void *realloc(void *bytes, size many)
{
    if (!bytes)
        return malloc(many);
    struct block *block = (struct block *)((char *)bytes - HEAD);
    size before = block->length;
    if (many > MOST)
        return 0;
    if (many <= before - HEAD)
        return bytes;
    size length = length_for(many);
    if (before > LONG && (size)block + before == top && reaches(top + length - before)) {
        top += length - before;
        block->length = length;
        return bytes;
    }
    void *made = malloc(many);
    if (!made)
        return 0;
    __builtin_memcpy(made, bytes, before - HEAD);
    free(bytes);
    return made;
}
