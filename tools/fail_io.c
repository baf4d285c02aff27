// Makes one read of standard input or one write of standard output fail: that whose number, from 1 on, is in FAIL_READ or
// FAIL_WRITE. Reads and writes move at most PIECE bytes. For tools/fail_io.sh.
#define _GNU_SOURCE
#include <dlfcn.h>
#include <errno.h>
#include <stdlib.h>
#include <unistd.h>

static long number_in(const char *name) {
    const char *text = getenv(name);
    return text ? atol(text) : 0;
}

static size_t piece_of(size_t count) {
    long most = number_in("PIECE");
    return most > 0 && count > (size_t)most ? (size_t)most : count;
}

ssize_t read(int file, void *into, size_t count) {
    static ssize_t (*next)(int, void *, size_t);
    static long made;
    if (!next) next = (ssize_t (*)(int, void *, size_t))dlsym(RTLD_NEXT, "read");
    if (file != 0) return next(file, into, count);
    if (++made == number_in("FAIL_READ")) {
        errno = EIO;
        return -1;
    }
    return next(file, into, piece_of(count));
}

ssize_t write(int file, const void *from, size_t count) {
    static ssize_t (*next)(int, const void *, size_t);
    static long made;
    if (!next) next = (ssize_t (*)(int, const void *, size_t))dlsym(RTLD_NEXT, "write");
    if (file != 1) return next(file, from, count);
    if (++made == number_in("FAIL_WRITE")) {
        errno = EIO;
        return -1;
    }
    return next(file, from, piece_of(count));
}
