/* memcpy and memmove for x86-64 in the place of musl's, whose string instructions begin so slowly that a trace takes a fifth
 * longer. Whatever the sizes, a part is read whole before any of it is written. */
#include <stddef.h>
#include <stdint.h>
#include <string.h>

typedef uint32_t four __attribute__((aligned(1), may_alias));
typedef uint64_t eight __attribute__((aligned(1), may_alias));
typedef int64_t sixteen __attribute__((vector_size(16), aligned(1), may_alias));
typedef struct { sixteen at[4]; } sixty_four;

static inline sixty_four load(const unsigned char *from) {
    const sixteen *at = (const sixteen *)from;
    return (sixty_four){{at[0], at[1], at[2], at[3]}};
}

static inline void store(unsigned char *to, sixty_four part) {
    for (int i = 0; i < 4; i++) ((sixteen *)to)[i] = part.at[i];
}

/* Copies the first and the last bytes of a block as these, which overlap where it has fewer. */
#define COPY_ENDS(type)                                                                       \
    do {                                                                                      \
        type first = *(const type *)from, last = *(const type *)(from + count - sizeof last); \
        *(type *)to = first;                                                                  \
        *(type *)(to + count - sizeof last) = last;                                           \
    } while (0)

static inline void copy_few(unsigned char *to, const unsigned char *from, size_t count) {
    if (count >= 16) COPY_ENDS(sixteen);
    else if (count >= 8) COPY_ENDS(eight);
    else if (count >= 4) COPY_ENDS(four);
    else if (count) {
        unsigned char first = from[0], middle = from[count / 2], last = from[count - 1];
        to[0] = first;
        to[count / 2] = middle;
        to[count - 1] = last;
    }
}

/* It stands apart, since its arrays would have the copies of fewer bytes guard a stack that they do not use. */
static __attribute__((noinline)) void copy_many(unsigned char *to, const unsigned char *from, size_t count) {
    if ((uintptr_t)to - (uintptr_t)from >= count) {
        sixty_four last = load(from + count - 64);
        for (size_t i = 0; i < count - 64; i += 64) store(to + i, load(from + i));
        store(to + count - 64, last);
    } else {
        sixty_four first = load(from);
        for (size_t i = count; i > 64; i -= 64) store(to + i - 64, load(from + i - 64));
        store(to, first);
    }
}

static inline void copy(unsigned char *to, const unsigned char *from, size_t count) {
    if (count <= 32) {
        copy_few(to, from, count);
    } else if (count < 64) {
        sixteen second = *(const sixteen *)(from + 16), third = *(const sixteen *)(from + count - 32);
        COPY_ENDS(sixteen);
        *(sixteen *)(to + 16) = second;
        *(sixteen *)(to + count - 32) = third;
    } else {
        copy_many(to, from, count);
    }
}

void *memmove(void *to, const void *from, size_t count) {
    copy(to, from, count);
    return to;
}

void *memcpy(void *restrict to, const void *restrict from, size_t count) { return memmove(to, from, count); }
