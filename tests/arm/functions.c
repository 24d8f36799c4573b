/* What the C functions under the proved code answer, a line a call: linked with those of pack/system and with the kit's own for x86-64
 * it must print the same, with the same arguments.
 */
#include <stdbool.h>
#include <stddef.h>
#include <stdint.h>
#include <stdio.h>
#include <string.h>

struct tried {
    bool ok;
    unsigned char *at;
};

struct tried rattle_alloc(size_t size, size_t alignment);
struct tried rattle_realloc(unsigned char *at, size_t kept, size_t size, size_t alignment);
void rattle_dealloc(unsigned char *at);
int32_t rattle_errno(void);
void rattle_set_errno(int32_t error);
ptrdiff_t rattle_arg(size_t number, unsigned char *room, size_t size);

#define MOST 65536
static const size_t sizes[] = {0, 1, 2, 15, 16, 17, 100, 4096, MOST, (size_t)1 << 47, SIZE_MAX / 2};
#define SIZES (sizeof sizes / sizeof *sizes)

static size_t lesser(size_t a, size_t b) { return a < b ? a : b; }

/* Each argument into each room of up to 40 bytes, which is printed whole, and arguments that there are not. */
static void arguments(void) {
    unsigned char room[40];
    for (size_t number = 0; number < 12; number++)
        for (size_t size = 0; size <= sizeof room; size++) {
            memset(room, '.', sizeof room);
            rattle_set_errno(7);
            ptrdiff_t length = rattle_arg(number, room, size);
            printf("argument %zu of %zu: %td, errno %d, %.40s\n", number, size, length, (int)rattle_errno(), (char *)room);
        }
    printf("argument %zu: %td\n", SIZE_MAX, rattle_arg(SIZE_MAX, room, sizeof room));
    printf("argument 2^32: %td\n", rattle_arg((size_t)1 << 32, room, sizeof room));
}

/* Blocks of each size and alignment, each made one of each other size and back, with the bytes that must stay. */
static void blocks(void) {
    for (size_t i = 0; i < SIZES; i++)
        for (size_t alignment = 1; alignment <= 16; alignment *= 2) {
            struct tried block = rattle_alloc(sizes[i], alignment);
            printf("alloc %zu at %zu: %d %d\n", sizes[i], alignment, block.ok, block.at != NULL);
            if (!block.ok) continue;
            printf("aligned %d\n", (uintptr_t)block.at % alignment == 0);
            size_t size = sizes[i];
            for (size_t j = 0; j < SIZES; j++)
                for (size_t k = 0; k < 2; k++) {
                    size_t next = k ? sizes[i] : sizes[j], kept = lesser(lesser(size, next), MOST), stayed = 0;
                    memset(block.at, (int)(j + 1), lesser(size, MOST));
                    struct tried grown = rattle_realloc(block.at, kept, next, alignment);
                    if (grown.ok) block.at = grown.at;
                    while (stayed < kept && block.at[stayed] == j + 1) stayed++;
                    printf("realloc %zu to %zu: %d %d, %zu stayed\n", size, next, grown.ok, grown.at != NULL, stayed);
                    if (grown.ok) size = next;
                }
            rattle_dealloc(block.at);
        }
}

int main(void) {
    arguments();
    for (int32_t error = -3; error < 140; error++) {
        rattle_set_errno(error);
        printf("errno %d\n", (int)rattle_errno());
    }
    blocks();
    return 0;
}
