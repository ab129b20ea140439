/* Stands before the C library's calls for memory of a program that it is loaded before.
 *
 * It refuses one request, the one whose number, from 1, is in REFUSED_REQUEST, and then writes a
 * byte to the descriptor whose number is in MARKS. Where TELL_HELD is set, it writes there at the program's
 * end how many bytes were held at most, and where TELL_REQUESTS is set, how many requests came. */
#include <errno.h>
#include <malloc.h>
#include <stdio.h>
#include <stdlib.h>
#include <unistd.h>

extern void *__libc_malloc(size_t size);
extern void *__libc_realloc(void *old, size_t size);
extern void __libc_free(void *old);

static long requests;
static size_t held;
static size_t most_held;

static int marks(void) {
    const char *number = getenv("MARKS");
    return number == NULL ? -1 : atoi(number);
}

static int is_refused(void) {
    const char *number = getenv("REFUSED_REQUEST");
    ++requests;
    if (number == NULL || requests != atol(number)) {
        return 0;
    }
    errno = ENOMEM;
    return write(marks(), "!", 1) == 1;
}

static void *taken(void *block) {
    held += malloc_usable_size(block);
    if (held > most_held) {
        most_held = held;
    }
    return block;
}

void *malloc(size_t size) {
    return is_refused() ? NULL : taken(__libc_malloc(size));
}

void *realloc(void *old, size_t size) {
    if (is_refused()) {
        return NULL;
    }
    held -= malloc_usable_size(old);
    return taken(__libc_realloc(old, size));
}

void free(void *old) {
    held -= malloc_usable_size(old);
    __libc_free(old);
}

__attribute__((destructor)) static void tell(void) {
    if (getenv("TELL_HELD") != NULL) {
        dprintf(marks(), "%zu", most_held);
    }
    if (getenv("TELL_REQUESTS") != NULL) {
        dprintf(marks(), "%ld", requests);
    }
}
