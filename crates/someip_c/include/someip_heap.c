/*
 * The memory of a node. The archive libsomeip_c.a leaves these three functions open; this file gives
 * them over malloc, realloc and free. Compile it with your program, or write your own three: they must
 * come from one allocator, and align a block to each power of two up to 16 that divides its size.
 */
#include <stdbool.h>
#include <stddef.h>
#include <stdint.h>
#include <stdlib.h>

struct tried {
    bool ok;
    uint8_t *at;
};

/* Where no memory was had, the answer points here. */
static uint8_t nothing;

static struct tried told(void *block) {
    struct tried answer = {block != NULL, block != NULL ? block : &nothing};
    return answer;
}

/* A block of size bytes, aligned to align, a power of two that is at most 16. */
struct tried rattle_alloc(size_t size, size_t align) {
    (void)align;
    return told(malloc(size != 0 ? size : 1));
}

/* The block at the pointer, with another size. Where it fails, the block stays as it was. */
struct tried rattle_realloc(uint8_t *block, size_t kept, size_t size, size_t align) {
    (void)kept;
    (void)align;
    return told(realloc(block, size != 0 ? size : 1));
}

void rattle_dealloc(uint8_t *block) {
    free(block);
}
