#include "counts.h"

#include <inttypes.h>
#include <stdio.h>
#include <string.h>

/* A kind of failure, and how often it came. */
struct failure {
    const char *what;
    int reason;
    uint64_t times;
};

enum { KINDS = 64 };

static struct failure failures[KINDS];
static size_t kinds;
static uint64_t without_memory;

void count_failure(const char *what, int reason) {
    for (size_t i = 0; i < kinds; i++)
        if (failures[i].reason == reason && strcmp(failures[i].what, what) == 0) {
            failures[i].times++;
            return;
        }
    if (kinds < KINDS)
        failures[kinds++] = (struct failure){what, reason, 1};
    fprintf(stderr, "someip-node: %s: %s\n", what, strerror(reason));
}

void count_memory(void) {
    without_memory++;
    fprintf(stderr, "out of memory\n");
}

static void tell(const char *what, uint64_t times) {
    if (times > 0)
        fprintf(stderr, "someip-node: %s: %" PRIu64 "\n", what, times);
}

void tell_counts(uint64_t own, uint64_t zero, uint64_t group) {
    for (size_t i = 0; i < kinds; i++)
        fprintf(stderr, "someip-node: %s: %s: %" PRIu64 " in all\n", failures[i].what, strerror(failures[i].reason), failures[i].times);
    tell("began anew without memory", without_memory);
    tell("left out, from the node's own address", own);
    tell("left out, from port 0", zero);
    tell("left out, from the address of the group", group);
}
