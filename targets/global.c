/* What proved code calls for memory: the kit's three functions over malloc, which it has for x86-64 alone, again for other
 * machines. A result is whether there is memory, and where; where there is none, a place that nobody reads or writes. Not
 * proved. */
typedef unsigned long u64;

struct place {
    u64 is_there, at;
};

void *malloc(u64 many);
void *realloc(void *block, u64 many);
void free(void *block);

static char nothing[16] __attribute__((aligned(16)));

static struct place place_of(void *block)
{
    struct place place = {block != 0, (u64)(block ? block : nothing)};
    return place;
}

/* Room for `many` bytes; for as many as `align` where that is 0, so that it has a place of its own. No type of these
 * sources has an alignment above 16, which malloc gives. */
struct place rattle_alloc(u64 many, u64 align)
{
    return place_of(malloc(many ? many : align));
}

/* The same for a block that is there, with what it holds. Where there is no room it stays as it is. */
struct place rattle_realloc(void *block, u64 before, u64 many, u64 align)
{
    (void)before;
    return place_of(realloc(block, many ? many : align));
}

void rattle_dealloc(void *block)
{
    free(block);
}
