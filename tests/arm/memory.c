/* Copies by pack/system/memory.c of blocks of each length at each distance, beside copies byte by byte: it says how many are
 * the same. */
#include <stdio.h>
#include <string.h>

enum { LONGEST = 300, FAR = 150 };
static unsigned char block[FAR + LONGEST + FAR], wanted[sizeof block];

static void fill(unsigned char *to) {
    for (size_t i = 0; i < sizeof block; i++) to[i] = (unsigned char)(i * 167 + i / 251);
}

int main(void) {
    unsigned long copies = 0;
    for (size_t count = 0; count <= LONGEST; count++)
        for (int by = -FAR; by <= FAR; by++) {
            fill(block);
            fill(wanted);
            for (size_t i = 0; i < count; i++) wanted[(size_t)(FAR + by) + i] = block[FAR + i];
            void *(*volatile copy)(void *, const void *, size_t) = (size_t)(by < 0 ? -by : by) >= count ? memcpy : memmove;
            void *to = block + FAR + by;
            int same = copy(to, block + FAR, count) == to;
            for (size_t i = 0; i < sizeof block; i++) same = same && block[i] == wanted[i];
            if (!same) {
                printf("%zu bytes, by %d: not the same\n", count, by);
                return 1;
            }
            copies++;
        }
    printf("copies %lu\n", copies);
    return 0;
}
