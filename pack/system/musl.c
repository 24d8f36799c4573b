/* Functions that the proved program calls by the names that the GNU C library has for them, and musl has not. */
#define _GNU_SOURCE
#include <stddef.h>
#include <sys/syscall.h>
#include <unistd.h>
#if defined __x86_64__
#include <cpuid.h>
#endif

struct statx;
int statx(int folder, const char *path, int flags, unsigned mask, struct statx *found);
int statx(int folder, const char *path, int flags, unsigned mask, struct statx *found) {
    return (int)syscall(SYS_statx, folder, path, flags, mask, found);
}

#if defined __x86_64__
ssize_t __write(int file, const void *bytes, size_t count);
ssize_t __write(int file, const void *bytes, size_t count) { return write(file, bytes, count); }

/* What the processor has, as its instruction cpuid says it in four registers, and what of that may be used. At its beginning
 * the program asks for the instructions of level v2, which a system need not know of. */
struct features { unsigned has[4], usable[4]; };

const struct features *__x86_get_cpuid_feature_leaf(unsigned number);
const struct features *__x86_get_cpuid_feature_leaf(unsigned number) {
    static const unsigned leaves[] = {1, 7, 0x80000001};
    static struct features found;
    found = (struct features){{0}, {0}};
    if (number < sizeof leaves / sizeof *leaves)
        __get_cpuid_count(leaves[number], 0, &found.usable[0], &found.usable[1], &found.usable[2], &found.usable[3]);
    for (int i = 0; i < 4; i++) found.has[i] = found.usable[i];
    return &found;
}
#endif
