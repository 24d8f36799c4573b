/* The memory of the proved code in the packages, over malloc, realloc and free. The kit has these functions as objects for
 * x86-64 alone. Its library `libc` declares them, in heap.rt, and the proofs rest on what it declares, which is said here
 * above each. */
#include <assert.h>
#include <stdalign.h>
#include <stdbool.h>
#include <stddef.h>
#include <stdlib.h>

/* Whether there is memory, and where. Without memory the pointer owns nothing, but is not null. */
struct tried {
    bool ok;
    unsigned char *at;
};

struct tried rattle_alloc(size_t size, size_t alignment);
struct tried rattle_realloc(unsigned char *at, size_t kept, size_t size, size_t alignment);
void rattle_dealloc(unsigned char *at);

/* A caller asks for no wider alignment than 16. */
static_assert(alignof(max_align_t) >= 16, "malloc and realloc align to 16");

static struct tried tried(void *at) {
    static unsigned char nowhere;
    return at ? (struct tried){true, at} : (struct tried){false, &nowhere};
}

/* A block of no bytes would make malloc answer null, and realloc free what it was given: it gets one byte. */
static size_t some(size_t size) { return size > 0 ? size : 1; }

/* Gives a new block of so many bytes, below 2^63, at a multiple of the alignment, which divides 16; or has no memory for it.
 * What the block holds is not said. */
struct tried rattle_alloc(size_t size, size_t alignment) {
    (void)alignment;
    return tried(malloc(some(size)));
}

/* Makes a block one of so many bytes, here or at another place, which begins with the first `kept` bytes that it had; they
 * are no more than it has before or after. Without memory for that, the block is as it was, where it was. */
struct tried rattle_realloc(unsigned char *at, size_t kept, size_t size, size_t alignment) {
    (void)kept;
    (void)alignment;
    return tried(realloc(at, some(size)));
}

/* Frees a block that one of these gave and that was not freed. */
void rattle_dealloc(unsigned char *at) { free(at); }
