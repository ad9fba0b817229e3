/* The memory of a node, of which one growth is refused after each signal USR1: the one of the number in SOMEIP_REFUSES. */
#include <signal.h>
#include <stdbool.h>
#include <stddef.h>
#include <stdint.h>
#include <stdlib.h>

struct tried {
    bool ok;
    uint8_t *at;
};

static uint8_t nothing;
static volatile sig_atomic_t left;

static void begin(int signal) {
    const char *number = getenv("SOMEIP_REFUSES");
    (void)signal;
    left = number == NULL ? 1 : atoi(number);
}

__attribute__((constructor)) static void catch(void) {
    signal(SIGUSR1, begin);
}

static bool is_refused(void) {
    return left > 0 && --left == 0;
}

static struct tried told(void *block) {
    struct tried answer = {block != NULL, block != NULL ? block : &nothing};
    return answer;
}

struct tried rattle_alloc(size_t size, size_t align) {
    (void)align;
    return told(is_refused() ? NULL : malloc(size != 0 ? size : 1));
}

struct tried rattle_realloc(uint8_t *block, size_t kept, size_t size, size_t align) {
    (void)kept;
    (void)align;
    return told(is_refused() ? NULL : realloc(block, size != 0 ? size : 1));
}

void rattle_dealloc(uint8_t *block) {
    free(block);
}
