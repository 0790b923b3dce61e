/* Counts what a program asks of malloc, calloc and realloc, its reads of standard input and its writes to standard
   output, and refuses one of them: the allocation of the number REFUSE, the read of the number FAIL_READ, or the write
   of the number FAIL_WRITE. A write takes at most as many bytes as PIECE says. At the end the three counts go to the
   file ASKED. */

#include <errno.h>
#include <fcntl.h>
#include <stdio.h>
#include <stdlib.h>
#include <sys/syscall.h>
#include <unistd.h>

void *__libc_malloc(size_t size);
void *__libc_calloc(size_t count, size_t size);
void *__libc_realloc(void *old, size_t size);

static unsigned long asked, reads, writes;

/* The number that the environment gives by a name, or 0. */
static unsigned long number(const char *name) {
    const char *given = getenv(name);
    return given ? strtoul(given, NULL, 10) : 0;
}

/* The C library itself asks for memory to start a thread, and looks for the reason where it gets none. */
static int is_refused(void) {
    asked += 1;
    if (asked != number("REFUSE")) {
        return 0;
    }
    errno = ENOMEM;
    return 1;
}

void *malloc(size_t size) {
    return is_refused() ? NULL : __libc_malloc(size);
}

void *calloc(size_t count, size_t size) {
    return is_refused() ? NULL : __libc_calloc(count, size);
}

void *realloc(void *old, size_t size) {
    return is_refused() ? NULL : __libc_realloc(old, size);
}

ssize_t read(int file, void *bytes, size_t size) {
    if (file == STDIN_FILENO && ++reads == number("FAIL_READ")) {
        errno = EIO;
        return -1;
    }
    return syscall(SYS_read, file, bytes, size);
}

ssize_t write(int file, const void *bytes, size_t size) {
    unsigned long piece = number("PIECE");
    if (file == STDOUT_FILENO && ++writes == number("FAIL_WRITE")) {
        errno = EIO;
        return -1;
    }
    return syscall(SYS_write, file, bytes, file == STDOUT_FILENO && piece && piece < size ? piece : size);
}

static void tell(void) {
    const char *path = getenv("ASKED");
    int file = path ? open(path, O_WRONLY | O_CREAT | O_TRUNC, 0600) : -1;
    unsigned long counts[] = {asked, reads, writes};
    if (file >= 0) {
        dprintf(file, "%lu %lu %lu\n", counts[0], counts[1], counts[2]);
    }
}

/* A program that may start threads ends by _exit, which calls no destructor. */
void _exit(int status) {
    tell();
    syscall(SYS_exit_group, status);
    __builtin_unreachable();
}

__attribute__((destructor)) static void at_exit(void) {
    tell();
}
