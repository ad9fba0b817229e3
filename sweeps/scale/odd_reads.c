/* Loaded before a program, this makes its reads of standard input odd: each gives READ_MOST bytes at most, and with
   READ_INTERRUPTED each is interrupted by a signal once before it is done. `sweeps/run edges` builds it. */
#define _GNU_SOURCE
#include <dlfcn.h>
#include <errno.h>
#include <stdlib.h>
#include <unistd.h>

ssize_t read(int file, void *room, size_t len) {
    static ssize_t (*system_read)(int, void *, size_t);
    static int was_interrupted;
    const char *most = getenv("READ_MOST");
    if (!system_read) *(void **)&system_read = dlsym(RTLD_NEXT, "read");
    if (file != STDIN_FILENO) return system_read(file, room, len);
    was_interrupted = !was_interrupted && getenv("READ_INTERRUPTED");
    if (was_interrupted) {
        errno = EINTR;
        return -1;
    }
    if (most && (size_t)atol(most) < len) len = (size_t)atol(most);
    return system_read(file, room, len);
}
