/* The log of a node: a setup, a schedule over it and the trace of that, which `someipctl run` plays again.
 *
 * The schedule has each thing that happened to the node, and the trace each that it gave. A step stands in the schedule
 * before its lines stand in the trace, so that a log which ends anywhere is still a beginning. Of each address that a
 * datagram came from the setup has a liar. */
#ifndef LOG_H
#define LOG_H

#include "someip.h"

#include <stdbool.h>
#include <stddef.h>
#include <stdint.h>

/* The most liars of a setup with one node. */
enum { PEERS_MOST = 63 };

struct log {
    bool is_on;
    const char *folder;
    int schedule, trace;
    long long schedule_length; /* how many bytes of the schedule stand for good */
    uint64_t steps, steps_most;
    someip_endpoint peers[PEERS_MOST];
    size_t peer_count;
    const uint8_t *setup;
    size_t setup_length;
    const char *name;
    uint32_t delay_ms; /* the one that the node was started with */
};

/* Begins the log of a node in a folder, which is made where it is not there; a log that is there is left as it is. It
 * answers false where that failed, and has told why. */
bool log_begin(struct log *log, const char *folder);

/* Writes a step of the node: `tick` with the milliseconds, `restart` with a delay, or another with its words as they came.
 * The node's name is put behind the step's word. It is taken back by log_undo while none of its lines stands. */
void log_step(struct log *log, const char *words, size_t length);
void log_undo(struct log *log);

/* Writes that a datagram came, of this number: that its sender sent it, and that the node got it. */
void log_datagram(struct log *log, uint64_t number, const someip_endpoint *from, const someip_endpoint *to,
                  const uint8_t *bytes, size_t length);

/* Writes a line of the trace by the step that was written last. */
void log_line(struct log *log, const uint8_t *words, size_t length);

/* Ends the log, and tells why. The node goes on. */
void log_end(struct log *log, const char *why);

void log_close(struct log *log);

#endif
