/* For tests/streams, loaded before the C library (LD_PRELOAD): calls of read on standard input and of write on standard output that fail or move little, as the environment says.
 *   READ_PIECE, WRITE_PIECE       at most so many bytes a call
 *   READ_FAILS, WRITE_FAILS       errno of calls that fail: the first FAIL_COUNT after FAIL_AFTER bytes */
#define _GNU_SOURCE
#include <errno.h>
#include <stdlib.h>
#include <sys/syscall.h>
#include <unistd.h>

static long number(const char *name, long otherwise) {
    const char *text = getenv(name);
    return text ? atol(text) : otherwise;
}

/* moved, failed: the bytes moved and the calls failed so far */
static ssize_t call(long system_call, const char *fails, const char *piece, long *moved, long *failed, int fd, void *bytes, size_t count) {
    long most = number(piece, (long)count), error = number(fails, 0), after = number("FAIL_AFTER", 0);
    if (error && *moved >= after && *failed < number("FAIL_COUNT", 1)) {
        ++*failed;
        errno = (int)error;
        return -1;
    }
    if (error && *moved < after && after - *moved < most)
        most = after - *moved;
    if ((long)count < most)
        most = (long)count;
    ssize_t got = syscall(system_call, fd, bytes, most);
    if (got > 0)
        *moved += got;
    return got;
}

ssize_t read(int fd, void *bytes, size_t count) {
    static long moved, failed;
    return fd ? syscall(SYS_read, fd, bytes, count) : call(SYS_read, "READ_FAILS", "READ_PIECE", &moved, &failed, fd, bytes, count);
}

ssize_t write(int fd, const void *bytes, size_t count) {
    static long moved, failed;
    return fd != 1 ? syscall(SYS_write, fd, bytes, count) : call(SYS_write, "WRITE_FAILS", "WRITE_PIECE", &moved, &failed, fd, (void *)bytes, count);
}
