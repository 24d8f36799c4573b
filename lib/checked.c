/* The calls of the C library that the compiler makes where it knows how much room there is (_FORTIFY_SOURCE), for the addon
 * and the extension: the GNU C library has them, and musl has not. One that would write past the room ends the process. */
#include <stdarg.h>
#include <stddef.h>
#undef _FORTIFY_SOURCE
#include <stdio.h>
#include <stdlib.h>
#include <string.h>

void *__memcpy_chk(void *to, const void *from, size_t count, size_t room);
void *__memcpy_chk(void *to, const void *from, size_t count, size_t room) {
    if (count > room) abort();
    return memcpy(to, from, count);
}

int __snprintf_chk(char *to, size_t size, int flag, size_t room, const char *format, ...);
int __snprintf_chk(char *to, size_t size, int flag, size_t room, const char *format, ...) {
    (void)flag;
    if (size > room) abort();
    va_list words;
    va_start(words, format);
    int length = vsnprintf(to, size, format, words);
    va_end(words);
    return length;
}
