/* Stands before the C library's reads and writes of a program that it is loaded before.
 *
 * It fails one read of the standard input or of a file, the one whose number, from 1, is in FAILED_READ,
 * and one write to the standard output, by FAILED_WRITE; those behind it work. Where READ_AT_MOST is set, a
 * read gives no more bytes than that. Where OPEN_FAULT is set, no file can be opened, by the fault of that
 * number. Where TELL_CALLS is set, it writes to the descriptor whose number is in MARKS at the program's end how
 * many reads and writes were made. */
#include <errno.h>
#include <fcntl.h>
#include <stdio.h>
#include <stdlib.h>
#include <sys/syscall.h>
#include <unistd.h>

static long reads;
static long writes;

/* The number that a word of the environment has, or 0. */
static long number_in(const char *word) {
    const char *number = getenv(word);
    return number == NULL ? 0 : atol(number);
}

ssize_t read(int descriptor, void *bytes, size_t size) {
    size_t most = number_in("READ_AT_MOST");
    if (++reads == number_in("FAILED_READ")) {
        errno = EIO;
        return -1;
    }
    if (most > 0 && most < size) {
        size = most;
    }
    return syscall(SYS_read, descriptor, bytes, size);
}

/* The program makes no files, so no mode stands behind the flags. */
int open(const char *path, int flags, ...) {
    long fault = number_in("OPEN_FAULT");
    if (fault != 0) {
        errno = (int)fault;
        return -1;
    }
    return (int)syscall(SYS_openat, AT_FDCWD, path, flags, 0);
}

ssize_t write(int descriptor, const void *bytes, size_t size) {
    if (descriptor == 1 && ++writes == number_in("FAILED_WRITE")) {
        errno = ENOSPC;
        return -1;
    }
    return syscall(SYS_write, descriptor, bytes, size);
}

__attribute__((destructor)) static void tell_calls(void) {
    if (getenv("TELL_CALLS") != NULL) {
        dprintf((int)number_in("MARKS"), "%ld %ld", reads, writes);
    }
}
