/* Counts the growths that a program asks for between its marks, and refuses some of them. It is loaded before the C
   library, and stands for its malloc, realloc and write.

   REFUSE=0      none is refused
   REFUSE=N      the Nth between the marks is refused, from 1
   REFUSE=all    each one between the marks is refused

   A write of the line `begin` or `end` to standard output is a mark, and is not handed on. Behind the last one the line
   `growths N refused M` is written in its place. */
#define _GNU_SOURCE
#include <dlfcn.h>
#include <stdio.h>
#include <stdlib.h>
#include <string.h>
#include <unistd.h>

static int counting;
static unsigned long growths, refused;

static ssize_t write_on(int fd, const void *bytes, size_t count) {
    static ssize_t (*next)(int, const void *, size_t);
    if (next == NULL) next = (ssize_t (*)(int, const void *, size_t))dlsym(RTLD_NEXT, "write");
    return next(fd, bytes, count);
}

static int is_line(const void *bytes, size_t count, const char *line) {
    return count == strlen(line) && memcmp(bytes, line, count) == 0;
}

ssize_t write(int fd, const void *bytes, size_t count) {
    if (fd == 1 && is_line(bytes, count, "begin\n")) {
        counting = 1;
        return (ssize_t)count;
    }
    if (fd == 1 && is_line(bytes, count, "end\n")) {
        char line[80];
        counting = 0;
        int length = snprintf(line, sizeof line, "growths %lu refused %lu\n", growths, refused);
        write_on(1, line, (size_t)length);
        return (ssize_t)count;
    }
    return write_on(fd, bytes, count);
}

static int is_refused(void) {
    if (!counting) return 0;
    growths += 1;
    const char *which = getenv("REFUSE");
    if (which == NULL) return 0;
    if (strcmp(which, "all") != 0 && strtoul(which, NULL, 10) != growths) return 0;
    refused += 1;
    return 1;
}

void *malloc(size_t size) {
    static void *(*next)(size_t);
    if (next == NULL) next = (void *(*)(size_t))dlsym(RTLD_NEXT, "malloc");
    return is_refused() ? NULL : next(size);
}

void *realloc(void *old, size_t size) {
    static void *(*next)(void *, size_t);
    if (next == NULL) next = (void *(*)(void *, size_t))dlsym(RTLD_NEXT, "realloc");
    return is_refused() ? NULL : next(old, size);
}
