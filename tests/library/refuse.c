/* Refuses memory to libsmap.so, and to nothing else, for tests/library/memory.rs: each growth but those of the library goes through. */
#define _GNU_SOURCE
#include <dlfcn.h>
#include <stdint.h>
#include <stdlib.h>
#include <string.h>

static uint64_t grown, refused;

/* Refuses growth `nth` from now on, or none, and says how many there were before. */
uint64_t refuse_growth(uint64_t nth) {
    uint64_t before = grown;
    grown = 0;
    refused = nth;
    return before;
}

static int is_refused(void *caller) {
    Dl_info info;
    if (!dladdr(caller, &info) || !info.dli_fname || !strstr(info.dli_fname, "libsmap.so")) return 0;
    return ++grown == refused;
}

#define REAL(name) ((__typeof__(&name))dlsym(RTLD_NEXT, #name))
#define UNLESS_REFUSED(call) (is_refused(__builtin_return_address(0)) ? NULL : (call))

void *malloc(size_t size) {
    static __typeof__(&malloc) real;
    if (!real) real = REAL(malloc);
    return UNLESS_REFUSED(real(size));
}

void *realloc(void *old, size_t size) {
    static __typeof__(&realloc) real;
    if (!real) real = REAL(realloc);
    return UNLESS_REFUSED(real(old, size));
}
