// Lets chosen calls of the C library fail, in a program that is started with this in LD_PRELOAD.
//
//   FAIL_CALL   memory (malloc and realloc, counted together), open, read, write, lseek or close
//   FAIL_AT     the number of the first call that fails, from 1; 0: every call is met
//   FAIL_TIMES  how many calls in a row fail from there on; at FAIL_AT 0, how often each call fails before it is let through
//   FAIL_ERROR  the error's number
//   ONE_BYTE    where it is set, a read or write moves one byte at most
//   COUNTS_FD   at the end the numbers of calls are written to this descriptor, in the order above
#define _GNU_SOURCE
#include <errno.h>
#include <fcntl.h>
#include <stdarg.h>
#include <stddef.h>
#include <stdio.h>
#include <stdlib.h>
#include <string.h>
#include <sys/syscall.h>
#include <unistd.h>

enum { MEMORY, OPEN, READ, WRITE, LSEEK, CLOSE, CALLS };

static const char *const names[CALLS] = {"memory", "open", "read", "write", "lseek", "close"};

static long counts[CALLS];
static int armed, failing = -1, error_number, one_byte, counts_fd = -1;
static long fail_at, fail_times, failed_in_a_row;

extern void *__libc_malloc(size_t);
extern void *__libc_realloc(void *, size_t);

static long number_in(const char *name, long other) {
    const char *text = getenv(name);
    return text ? atol(text) : other;
}

__attribute__((constructor)) static void start(void) {
    const char *call = getenv("FAIL_CALL");
    for (int i = 0; call && i < CALLS; i++)
        if (!strcmp(call, names[i])) failing = i;
    fail_at = number_in("FAIL_AT", 0);
    fail_times = number_in("FAIL_TIMES", 1);
    error_number = (int)number_in("FAIL_ERROR", EIO);
    one_byte = number_in("ONE_BYTE", 0) != 0;
    counts_fd = (int)number_in("COUNTS_FD", -1);
    armed = 1;
}

__attribute__((destructor)) static void finish(void) {
    char text[200];
    int length = 0;
    armed = 0;
    for (int i = 0; i < CALLS; i++)
        length += snprintf(text + length, sizeof text - (size_t)length, "%ld ", counts[i]);
    if (counts_fd >= 0) syscall(SYS_write, counts_fd, text, (size_t)length);
}

static int fails_each_call(void) {
    if (failed_in_a_row == fail_times) {
        failed_in_a_row = 0;
        return 0;
    }
    failed_in_a_row++;
    return 1;
}

// Counts the call, and says whether it fails.
static int fails(int call) {
    if (!armed) return 0;
    long number = ++counts[call];
    if (call != failing) return 0;
    if (fail_at ? number < fail_at || number >= fail_at + fail_times : !fails_each_call()) return 0;
    errno = call == MEMORY ? ENOMEM : error_number;
    return 1;
}

void *malloc(size_t size) { return fails(MEMORY) ? NULL : __libc_malloc(size); }

void *realloc(void *block, size_t size) { return fails(MEMORY) ? NULL : __libc_realloc(block, size); }

int open(const char *path, int flags, ...) {
    mode_t mode = 0;
    if (flags & O_CREAT) {
        va_list rest;
        va_start(rest, flags);
        mode = va_arg(rest, mode_t);
        va_end(rest);
    }
    return fails(OPEN) ? -1 : (int)syscall(SYS_openat, AT_FDCWD, path, flags, mode);
}

static size_t moved(size_t size) { return one_byte && size > 1 ? 1 : size; }

ssize_t read(int fd, void *bytes, size_t size) { return fails(READ) ? -1 : syscall(SYS_read, fd, bytes, moved(size)); }

ssize_t write(int fd, const void *bytes, size_t size) { return fails(WRITE) ? -1 : syscall(SYS_write, fd, bytes, moved(size)); }

off_t lseek(int fd, off_t place, int whence) { return fails(LSEEK) ? -1 : syscall(SYS_lseek, fd, place, whence); }

int close(int fd) { return fails(CLOSE) ? -1 : (int)syscall(SYS_close, fd); }
