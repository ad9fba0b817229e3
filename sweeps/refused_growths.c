/* Loaded before a program, this refuses growths of its memory: number REFUSED_GROWTH of them, counted from 1, or as
   many from there on as REFUSED_GROWTHS says. At the end it writes how many growths it saw to the file at the path
   GROWTHS_SEEN. `sweeps/run memory` builds it. It stands on glibc, which keeps its own functions under other names. */
#include <errno.h>
#include <fcntl.h>
#include <stdio.h>
#include <stdlib.h>
#include <unistd.h>

void *__libc_malloc(size_t len);
void *__libc_calloc(size_t count, size_t len);
void *__libc_realloc(void *block, size_t len);
void *__libc_memalign(size_t align, size_t len);

static long seen, first = -1, last;

static long number_in(const char *name, long otherwise) {
    const char *word = getenv(name);
    return word ? atol(word) : otherwise;
}

static int is_refused(void) {
    if (first < 0) {
        first = number_in("REFUSED_GROWTH", 0);
        last = first + number_in("REFUSED_GROWTHS", 1) - 1;
    }
    seen++;
    if (seen < first || seen > last) return 0;
    errno = ENOMEM;
    return 1;
}

void *malloc(size_t len) { return is_refused() ? NULL : __libc_malloc(len); }
void *calloc(size_t count, size_t len) { return is_refused() ? NULL : __libc_calloc(count, len); }
void *realloc(void *block, size_t len) { return is_refused() ? NULL : __libc_realloc(block, len); }
void *memalign(size_t align, size_t len) { return is_refused() ? NULL : __libc_memalign(align, len); }
void *aligned_alloc(size_t align, size_t len) { return memalign(align, len); }

int posix_memalign(void **block, size_t align, size_t len) {
    void *made = memalign(align, len);
    if (!made) return ENOMEM;
    *block = made;
    return 0;
}

__attribute__((destructor)) static void tell_seen(void) {
    const char *path = getenv("GROWTHS_SEEN");
    char text[32];
    int len = snprintf(text, sizeof text, "%ld\n", seen);
    int file = path ? open(path, O_WRONLY | O_CREAT | O_TRUNC, 0644) : -1;
    if (file < 0) return;
    if (write(file, text, len) != len) unlink(path);
    close(file);
}
