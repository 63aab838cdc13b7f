/* The heap of the library for 64-bit ARM, for which the kit has no C code: what it states of its own, over malloc. A block
   of no bytes is one of its alignment, so that no two blocks share a place. */
#include <stdbool.h>
#include <stdlib.h>

struct tried {
    bool ok;
    void *block;
};

static char none[16];

static struct tried tried(void *block)
{
    return (struct tried){block != NULL, block != NULL ? block : none};
}

/* Tries to get memory for a value of some bytes, with an alignment of at most 16. */
struct tried rattle_alloc(size_t bytes, size_t alignment)
{
    return tried(malloc(bytes != 0 ? bytes : alignment));
}

/* Tries to make a block one of some bytes, which keeps its first ones. Where it fails, the block is as it was. */
struct tried rattle_realloc(void *block, size_t kept, size_t bytes, size_t alignment)
{
    (void)kept;
    return tried(realloc(block, bytes != 0 ? bytes : alignment));
}

/* Frees what either answered. */
void rattle_dealloc(void *block)
{
    free(block);
}
