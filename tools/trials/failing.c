/* Preload it: what the environment names fails. The request whose number REFUSE holds, from 1, is refused, an allocation or a
 * thread start, and then the file REFUSED is made. Standard output takes at most MOST_WRITTEN bytes at a time, standard input
 * fails once READ_FAILS_AFTER bytes were read, and no thread starts where NO_THREADS is set. Each thread start adds a byte to
 * the file STARTS. */
#define _GNU_SOURCE
#include <dlfcn.h>
#include <errno.h>
#include <fcntl.h>
#include <pthread.h>
#include <stdlib.h>
#include <unistd.h>

#define NEXT(call) static __typeof__(call) *next; if (!next) next = (__typeof__(call) *)dlsym(RTLD_NEXT, #call)

static unsigned long made;

static size_t number(const char *name, size_t otherwise) {
    const char *text = getenv(name);
    return text ? strtoul(text, 0, 10) : otherwise;
}

static int refuses(int error) {
    const char *mark = getenv("REFUSED");
    if (__atomic_add_fetch(&made, 1, __ATOMIC_SEQ_CST) != number("REFUSE", 0)) return 0;
    if (mark) close(open(mark, O_CREAT | O_WRONLY, 0600));
    errno = error;
    return 1;
}

void *malloc(size_t size) {
    NEXT(malloc);
    return refuses(ENOMEM) ? 0 : next(size);
}

void *realloc(void *old, size_t size) {
    NEXT(realloc);
    return refuses(ENOMEM) ? 0 : next(old, size);
}

ssize_t write(int file, const void *bytes, size_t count) {
    size_t most = number("MOST_WRITTEN", count);
    NEXT(write);
    return next(file, bytes, file == 1 && count > most ? most : count);
}

ssize_t read(int file, void *bytes, size_t count) {
    static size_t had;
    size_t left = number("READ_FAILS_AFTER", (size_t)-1) - had;
    ssize_t got;
    NEXT(read);
    if (file != 0) return next(file, bytes, count);
    if (left == 0) { errno = EIO; return -1; }
    got = next(file, bytes, count > left ? left : count);
    if (got > 0) had += got;
    return got;
}

int pthread_create(pthread_t *thread, const pthread_attr_t *attributes, void *(*start)(void *), void *argument) {
    int starts = getenv("STARTS") ? open(getenv("STARTS"), O_WRONLY | O_APPEND) : -1;
    NEXT(pthread_create);
    if (starts >= 0 && (write(starts, "+", 1) != 1 || close(starts) != 0)) return EAGAIN;
    return getenv("NO_THREADS") || refuses(EAGAIN) ? EAGAIN : next(thread, attributes, start, argument);
}
