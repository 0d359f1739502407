/* What proved code calls for memory, on Windows: ../global.c says what each does. The code is called as on Linux, where these
 * give two numbers back in registers, as no call of Windows does. Not proved. */
#include <stdint.h>
#include <stdlib.h>

#define CALLED __attribute__((sysv_abi))

struct place {
    uint64_t is_there, at;
};

static char nothing[16] __attribute__((aligned(16)));

static struct place place_of(void *block)
{
    struct place place = {block != NULL, (uint64_t)(block ? block : nothing)};
    return place;
}

CALLED struct place rattle_alloc(uint64_t many, uint64_t align)
{
    return place_of(malloc(many ? many : align));
}

CALLED struct place rattle_realloc(void *block, uint64_t before, uint64_t many, uint64_t align)
{
    (void)before;
    return place_of(realloc(block, many ? many : align));
}

void rattle_dealloc(void *block)
{
    free(block);
}
