/* Loaded before a program, this lets a read, and a write to standard output, move MOST_BYTES bytes at most. Read number
   FAILING_READ, or write number FAILING_WRITE, counted from 1, moves nothing: it fails by the error FAILS_BY, or, where
   that is 0, takes no byte. At the end the numbers of reads and of writes stand in the file at the path CALLS_SEEN.
   `sweeps/run calls` builds it. */
#define _GNU_SOURCE
#include <dlfcn.h>
#include <errno.h>
#include <fcntl.h>
#include <stdio.h>
#include <stdlib.h>
#include <sys/uio.h>
#include <unistd.h>

static long reads, writes;

static long number_in(const char *name) {
    const char *word = getenv(name);
    return word ? atol(word) : 0;
}

static size_t moved(size_t len) {
    size_t most = number_in("MOST_BYTES");
    return most && most < len ? most : len;
}

static ssize_t fail(void) {
    errno = number_in("FAILS_BY");
    return errno ? -1 : 0;
}

ssize_t read(int file, void *room, size_t len) {
    static ssize_t (*system_read)(int, void *, size_t);
    if (!system_read) *(void **)&system_read = dlsym(RTLD_NEXT, "read");
    if (++reads == number_in("FAILING_READ")) return fail();
    return system_read(file, room, moved(len));
}

ssize_t write(int file, const void *bytes, size_t len) {
    static ssize_t (*system_write)(int, const void *, size_t);
    if (!system_write) *(void **)&system_write = dlsym(RTLD_NEXT, "write");
    if (file != STDOUT_FILENO) return system_write(file, bytes, len);
    if (++writes == number_in("FAILING_WRITE")) return fail();
    return system_write(file, bytes, moved(len));
}

ssize_t writev(int file, const struct iovec *parts, int count) {
    for (int index = 0; index < count; index++)
        if (parts[index].iov_len) return write(file, parts[index].iov_base, parts[index].iov_len);
    return 0;
}

__attribute__((destructor)) static void tell_seen(void) {
    const char *path = getenv("CALLS_SEEN");
    FILE *file = path ? fopen(path, "w") : NULL;
    if (!file) return;
    fprintf(file, "%ld %ld\n", reads, writes);
    fclose(file);
}
