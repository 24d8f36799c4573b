/* What the program of the packages asks of the system beside the C library's own functions. The kit has these as objects for
 * x86-64 alone, and its arguments from a call that musl makes otherwise. Its library `os` declares them, in c.rt, and no
 * proof says more of them than their types and what is said here above each. Of those that it declares these are the ones
 * that the program reaches: to link it with fewer fails. */
#include <errno.h>
#include <stddef.h>
#include <stdint.h>
#include <string.h>

int32_t rattle_errno(void);
void rattle_set_errno(int32_t error);
ptrdiff_t rattle_arg(size_t number, unsigned char *room, size_t size);

/* The program's own main, which the linker calls so, and the one that it has the system call: --wrap=main. */
int __real_main(int count, char **arguments);
int __wrap_main(int count, char **arguments);

static int argument_count;
static char **all_arguments;

int __wrap_main(int count, char **arguments) {
    argument_count = count;
    all_arguments = arguments;
    return __real_main(count, arguments);
}

/* The calling thread's number of the last error. */
int32_t rattle_errno(void) { return errno; }

/* Sets it. */
void rattle_set_errno(int32_t error) { errno = error; }

/* Puts the bytes of the argument of this number, from 0, which is the program's name, to the front of the room, and gives
 * how many they are, without a byte 0 at the end. Gives -1 where there is no such argument; and -2 where the room is too
 * small, which then is full of the first of them. */
ptrdiff_t rattle_arg(size_t number, unsigned char *room, size_t size) {
    if (number >= (size_t)argument_count) return -1;
    size_t length = strlen(all_arguments[number]);
    if (length > size) {
        memcpy(room, all_arguments[number], size);
        return -2;
    }
    memcpy(room, all_arguments[number], length);
    return (ptrdiff_t)length;
}
