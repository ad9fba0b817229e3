#include "log.h"

#include "texts.h"
#include "wire.h"

#include <errno.h>
#include <fcntl.h>
#include <inttypes.h>
#include <stdio.h>
#include <stdlib.h>
#include <string.h>
#include <sys/stat.h>
#include <unistd.h>

enum { PATH_MOST = 4096, LINE_MOST = 2 * DATAGRAM_MOST + 128 };

void log_end(struct log *log, const char *why) {
    if (!log->is_on)
        return;
    fprintf(stderr, "someip-node: the log ends: %s\n", why);
    log_close(log);
}

void log_close(struct log *log) {
    if (log->is_on) {
        close(log->schedule);
        close(log->trace);
    }
    log->is_on = false;
}

/* Writes bytes whole. */
static bool put(int fd, const char *bytes, size_t length) {
    while (length > 0) {
        ssize_t written = write(fd, bytes, length);
        if (written < 0 && errno == EINTR)
            continue;
        if (written <= 0)
            return false;
        bytes += written;
        length -= (size_t)written;
    }
    return true;
}

static bool path_in(const struct log *log, const char *name, char path[PATH_MOST]) {
    int length = snprintf(path, PATH_MOST, "%s/%s", log->folder, name);
    errno = ENAMETOOLONG;
    return length > 0 && length < PATH_MOST;
}

/* Opens an empty file of the folder, in place of one that was there or, with O_EXCL, where none was there. */
static int open_in(const struct log *log, const char *name, int how) {
    char path[PATH_MOST];
    return path_in(log, name, path) ? open(path, O_WRONLY | O_CREAT | O_CLOEXEC | how, 0644) : -1;
}

/* Writes the setup with a liar for each peer so far: beside the old one, in whose place it is put then. */
static bool put_setup(const struct log *log) {
    char path[PATH_MOST], next[PATH_MOST];
    struct text text = TEXT_INIT(text);
    uint32_t outcome;
    do
        outcome = someip_log_setup(log->setup, log->setup_length, (const uint8_t *)log->name, strlen(log->name), log->delay_ms,
                                   log->peers, log->peer_count, text.bytes, text.size, &text.length);
    while (text_grows(&text, outcome));
    int fd = outcome == SOMEIP_DONE ? open_in(log, "setup.toml.next", O_TRUNC) : -1;
    bool is_put = fd >= 0 && put(fd, (char *)text.bytes, text.length);
    if (fd >= 0)
        is_put = close(fd) == 0 && is_put;
    text_free(&text);
    return is_put && path_in(log, "setup.toml", path) && path_in(log, "setup.toml.next", next) && rename(next, path) == 0;
}

bool log_begin(struct log *log, const char *folder) {
    log->folder = folder;
    log->schedule = log->trace = -1;
    if ((mkdir(folder, 0755) == 0 || errno == EEXIST) && (log->trace = open_in(log, "trace.txt", O_EXCL)) >= 0
        && (log->schedule = open_in(log, "schedule.txt", O_EXCL)) >= 0 && put_setup(log)) {
        log->is_on = true;
        return true;
    }
    fprintf(stderr, "someip-node: %s: %s\n", folder, strerror(errno));
    return false;
}

/* Writes a line of the schedule, or ends the log without it. */
static bool put_step(struct log *log, const char *line, size_t length) {
    if (log->steps >= log->steps_most) {
        log_end(log, "it has as many steps as --log-steps says");
        return false;
    }
    off_t end = lseek(log->schedule, 0, SEEK_CUR);
    log->schedule_length = end;
    if (!put(log->schedule, line, length)) {
        const char *why = strerror(errno);
        if (ftruncate(log->schedule, end) != 0)
            why = "a step was written in part, and cannot be taken back";
        log_end(log, why);
        return false;
    }
    log->steps++;
    return true;
}

void log_step(struct log *log, const char *words, size_t length) {
    if (!log->is_on)
        return;
    const char *blank = memchr(words, ' ', length);
    size_t head = blank == NULL ? length : (size_t)(blank - words), name = strlen(log->name);
    char *line = malloc(length + name + 2);
    if (line == NULL) {
        log_end(log, "out of memory");
        return;
    }
    memcpy(line, words, head);
    line[head] = ' ';
    memcpy(line + head + 1, log->name, name);
    memcpy(line + head + 1 + name, words + head, length - head);
    line[length + name + 1] = '\n';
    put_step(log, line, length + name + 2);
    free(line);
}

void log_undo(struct log *log) {
    if (!log->is_on)
        return;
    if (ftruncate(log->schedule, log->schedule_length) != 0 || lseek(log->schedule, log->schedule_length, SEEK_SET) < 0)
        log_end(log, strerror(errno));
    else
        log->steps--;
}

/* The number of the liar that stands for an address, from 0; the number of all where there is none yet. */
static size_t peer_at(const struct log *log, const someip_endpoint *from) {
    size_t i = 0;
    while (i < log->peer_count && memcmp(log->peers[i].address, from->address, 4) != 0)
        i++;
    return i;
}

/* The number in the name of a liar: liars are p1, p2, .. without the name of the node. */
static size_t number_of(const struct log *log, size_t peer) {
    for (size_t number = 1;; number++) {
        char name[32];
        snprintf(name, sizeof name, "p%zu", number);
        if (strcmp(name, log->name) == 0)
            continue;
        if (peer-- == 0)
            return number;
    }
}

/* The liar of a sender, which the setup has from now on. */
static bool find_peer(struct log *log, const someip_endpoint *from, size_t *peer) {
    *peer = peer_at(log, from);
    if (*peer < log->peer_count)
        return true;
    if (*peer == PEERS_MOST) {
        log_end(log, "datagrams came from more than 63 addresses");
        return false;
    }
    log->peers[log->peer_count++] = *from;
    if (put_setup(log))
        return true;
    log_end(log, "the setup cannot be written");
    return false;
}

void log_datagram(struct log *log, uint64_t number, const someip_endpoint *from, const someip_endpoint *to,
                  const uint8_t *bytes, size_t length) {
    static char line[LINE_MOST];
    static char hex[2 * DATAGRAM_MOST + 2];
    char sender[ENDPOINT_MOST], target[ENDPOINT_MOST];
    size_t peer;
    if (!log->is_on || !find_peer(log, from, &peer))
        return;
    size_t liar = number_of(log, peer);
    put_hex(hex, bytes, length);
    put_endpoint(sender, from);
    put_endpoint(target, to);
    int put_length = snprintf(line, sizeof line, "inject p%zu %u %s %s\n", liar, from->port, target, hex);
    if (!put_step(log, line, (size_t)put_length))
        return;
    put_length = snprintf(line, sizeof line, "%" PRIu64 " p%zu sent %" PRIu64 " %s %s %s\n", log->steps, liar, number, sender, target, hex);
    if (!put(log->trace, line, (size_t)put_length)) {
        log_end(log, strerror(errno));
        return;
    }
    put_length = snprintf(line, sizeof line, "deliver %" PRIu64 " %s\n", number, log->name);
    put_step(log, line, (size_t)put_length);
}

void log_line(struct log *log, const uint8_t *words, size_t length) {
    char head[64];
    if (!log->is_on)
        return;
    int head_length = snprintf(head, sizeof head, "%" PRIu64 " %s ", log->steps, log->name);
    char *line = malloc((size_t)head_length + length + 1);
    if (line == NULL) {
        log_end(log, "out of memory");
        return;
    }
    memcpy(line, head, (size_t)head_length);
    memcpy(line + head_length, words, length);
    line[(size_t)head_length + length] = '\n';
    if (!put(log->trace, line, (size_t)head_length + length + 1))
        log_end(log, strerror(errno));
    free(line);
}
