/* Refuses one request of those that a program makes of the C library. Loaded ahead of that library (LD_PRELOAD).

   REFUSE says of which kind it is: memory, read, write or thread, or short_read or short_write, where the call is not
   refused but moves one byte at most. REFUSE_NUMBER says which of its kind, counted from 1. Once it has come, a byte
   is written to the file descriptor of number REFUSE_TELL. */
#define _GNU_SOURCE
#include <dlfcn.h>
#include <errno.h>
#include <pthread.h>
#include <stdlib.h>
#include <string.h>
#include <sys/syscall.h>
#include <sys/uio.h>
#include <unistd.h>

extern void *__libc_malloc(size_t);
extern void *__libc_realloc(void *, size_t);

static const char *kind = "";
static long number, seen;
static int tell;

__attribute__((constructor)) static void begin(void) {
    const char *asked = getenv("REFUSE"), *which = getenv("REFUSE_NUMBER"), *where = getenv("REFUSE_TELL");
    if (asked && which && where) {
        kind = asked;
        number = atol(which);
        tell = atoi(where);
    }
}

/* Whether this request, one of this kind, is that one. */
static int is_it(const char *of) {
    if (strcmp(kind, of))
        return 0;
    long now = __atomic_add_fetch(&seen, 1, __ATOMIC_SEQ_CST);
    if (now != number)
        return 0;
    syscall(SYS_write, tell, "x", 1);
    return 1;
}

void *malloc(size_t size) {
    if (!is_it("memory"))
        return __libc_malloc(size);
    errno = ENOMEM;
    return NULL;
}

void *realloc(void *block, size_t size) {
    if (!is_it("memory"))
        return __libc_realloc(block, size);
    errno = ENOMEM;
    return NULL;
}

ssize_t read(int file, void *bytes, size_t count) {
    if (is_it("read")) {
        errno = EIO;
        return -1;
    }
    return syscall(SYS_read, file, bytes, count > 1 && is_it("short_read") ? 1 : count);
}

ssize_t write(int file, const void *bytes, size_t count) {
    if (is_it("write")) {
        errno = EIO;
        return -1;
    }
    return syscall(SYS_write, file, bytes, count > 1 && is_it("short_write") ? 1 : count);
}

ssize_t __write(int file, const void *bytes, size_t count) {
    return write(file, bytes, count);
}

ssize_t writev(int file, const struct iovec *parts, int count) {
    return write(file, parts[0].iov_base, count ? parts[0].iov_len : 0);
}

int pthread_create(pthread_t *thread, const pthread_attr_t *how, void *(*body)(void *), void *with) {
    if (is_it("thread"))
        return EAGAIN;
    int (*next)(pthread_t *, const pthread_attr_t *, void *(*)(void *), void *) = dlsym(RTLD_NEXT, "pthread_create");
    return next(thread, how, body, with);
}
