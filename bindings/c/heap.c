/* The three functions by which librelc takes and gives back memory. A program that links librelc.a
 * may have its own in their place: all three from one allocator, which aligns a block to each power
 * of two up to 16 that divides its size. */
#include <stddef.h>
#include <stdint.h>
#include <stdlib.h>

struct relc_block {
    uint64_t given; /* 1 where the block was given */
    void *block;
};

/* what is handed out where no block is given: it is never read or written */
static char none;

struct relc_block rattle_alloc(size_t size, size_t align)
{
    void *block = malloc(size ? size : align);
    return (struct relc_block){block != NULL, block ? block : &none};
}

struct relc_block rattle_realloc(void *old, size_t was, size_t size, size_t align)
{
    (void)was;
    void *block = realloc(old, size ? size : align);
    return (struct relc_block){block != NULL, block ? block : &none};
}

void rattle_dealloc(void *block)
{
    free(block);
}
