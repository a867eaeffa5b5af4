/*
 * Loaded before the C library (LD_PRELOAD), does to standard input and standard output what the system may do at any call:
 * CUT_READ and CUT_WRITE name what befalls each read and each write.
 *
 *     short          one byte is moved
 *     interrupted    three times in four it fails with EINTR, as where a signal came first
 *     not yet        three times in four it fails with EAGAIN, as where a pipe is empty or full for now
 */
#define _GNU_SOURCE
#include <errno.h>
#include <stdlib.h>
#include <string.h>
#include <sys/syscall.h>
#include <unistd.h>

/* How many of n bytes a call may move; 0 where it fails, with errno set. */
static size_t allowed(const char *cut, unsigned turn, size_t n) {
    if (cut == NULL || n == 0) {
        return n;
    }
    if (strcmp(cut, "short") == 0) {
        return 1;
    }
    if (turn % 4 == 3) {
        return n;
    }
    errno = strcmp(cut, "interrupted") == 0 ? EINTR : EAGAIN;
    return 0;
}

ssize_t read(int fd, void *buf, size_t n) {
    static unsigned turn;
    if (fd == STDIN_FILENO && n > 0 && (n = allowed(getenv("CUT_READ"), turn++, n)) == 0) {
        return -1;
    }
    return syscall(SYS_read, fd, buf, n);
}

ssize_t write(int fd, const void *buf, size_t n) {
    static unsigned turn;
    if (fd == STDOUT_FILENO && n > 0 && (n = allowed(getenv("CUT_WRITE"), turn++, n)) == 0) {
        return -1;
    }
    return syscall(SYS_write, fd, buf, n);
}
