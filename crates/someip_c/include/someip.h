/*
 * someip.h: a SOME/IP node for C programs (libsomeip_c.a).
 *
 * A node has no sockets, no clock and no threads. The program carries datagrams to it and from it, and
 * tells it how much time has passed. docs/EMBEDDING.md has the loop around a node.
 *
 *     someip_handle node = SOMEIP_HANDLE_INIT;
 *     someip_start(&node, text, text_length, name, name_length, delay_ms);
 *     someip_on_datagram(&node, &from, &to, bytes, length);        a call ..
 *     while (someip_take(&node, &output, buffer, sizeof buffer) == SOMEIP_DONE)
 *         ..                                                       .. and what it gave
 *     someip_close(&node);
 *
 * What the library keeps, and is proved: each function does what its comment says, for any bytes and
 * numbers; it reads and writes no memory but what it is given and what it asks the allocator for; it
 * always returns. Tested alone is as which of MISSING, WRONG_KIND and OUT_OF_RANGE a setup is refused.
 *
 * What the caller keeps, which nothing can check:
 *   - A pointer points to a value of its type, and a pointer with a length to so many bytes. All of it
 *     may be read, and what a pointer without const points to may be written, and none of it is used by
 *     anyone else, or passed twice, until the function returns. No pointer is null, whatever its length
 *     is. The library keeps no pointer after it returned. A length is below 2^63.
 *   - A handle is begun with SOMEIP_HANDLE_INIT and from then on written by these functions alone. It may
 *     be moved in memory, but a copy is not used beside it. A handle that has a node is closed before it
 *     goes, or the node's memory is never freed.
 *   - A handle is used by one call at a time, on the thread that started it, and not in a signal handler
 *     or in a child that was forked from a process with threads.
 *   - A bool is 0 or 1.
 *   - The three functions of someip_heap.c, or three others as it asks for, are linked.
 *
 * IDs and ports are numbers of the machine, not in network order.
 */
#ifndef SOMEIP_H
#define SOMEIP_H

#include <stdbool.h>
#include <stddef.h>
#include <stdint.h>

#ifdef __cplusplus
extern "C" {
#endif

/* The version of this header. A program that loads the library when it runs compares it with what
 * someip_version answers: another number means another header. */
#define SOMEIP_VERSION 1

/* The version of the library. */
uint32_t someip_version(void);

/* How a call ended: each function but someip_version returns one of these. After all but SOMEIP_DONE
 * nothing has changed, unless the line says otherwise. 15 and 25 are not used. */
enum {
    SOMEIP_DONE = 0,             /* it was done */
    SOMEIP_CLOSED = 1,           /* the handle has no node */
    SOMEIP_HELD = 2,             /* the handle has a node already */
    SOMEIP_OUTPUTS_WAIT = 3,     /* outputs of an earlier call are to be taken first */
    SOMEIP_NOTHING_LEFT = 4,     /* all outputs were taken, or there are no more endpoints */
    SOMEIP_BUFFER_TOO_SMALL = 5, /* there are more bytes than the buffer has; it is told how many */
    SOMEIP_NOTHING_DUE = 6,      /* the clock alone gives nothing any more */
    SOMEIP_NOT_TEXT = 7,         /* the setup is not UTF-8 */
    SOMEIP_NOT_TOML = 8,         /* the setup is no TOML */
    SOMEIP_MISSING = 9,          /* a key of the setup is needed and is not there */
    SOMEIP_WRONG_KIND = 10,      /* the value at a key of the setup is of another kind */
    SOMEIP_OUT_OF_RANGE = 11,    /* the value at a key of the setup is outside its range */
    SOMEIP_UNKNOWN_KEY = 12,     /* the setup has a key that the format does not have */
    SOMEIP_CLASH = 13,           /* values of the setup may not be the same */
    SOMEIP_NO_SUCH_NODE = 14,    /* the setup has no node of the name */
    SOMEIP_BAD_DELAY = 16,       /* the delay is outside the range of the setup */
    SOMEIP_CLOCK_PAST = 17,      /* the clock would go past 2^63 - 1 milliseconds */
    SOMEIP_NOT_WANTED = 18,      /* the eventgroup is not one of those that the setup wants */
    SOMEIP_FAILED = 19,          /* memory ran out in an earlier call; someip_restart mends it */
    SOMEIP_OUT_OF_MEMORY = 20,   /* memory ran out: a node that was there gave nothing and has failed */
    SOMEIP_NOT_OFFERED = 21,     /* the instance is not offered */
    SOMEIP_BUSY = 22,            /* no further call can wait for its answer */
    SOMEIP_TOO_LONG = 23,        /* the payload is longer than the message limit of the setup */
    SOMEIP_UNKNOWN_TOKEN = 24,   /* no request waits under the token */
    SOMEIP_BAD_ERROR_CODE = 26,  /* an ERROR has the code of no error */
    SOMEIP_UNKNOWN_EVENT = 27,   /* there is no such event */
    SOMEIP_NOT_SUBSCRIBED = 28,  /* the endpoint has no such subscription */
    SOMEIP_BAD_STEP = 29,        /* the line is no step that a node does */
    SOMEIP_PAYLOAD_TOO_LONG = 30, /* the payload of the step is longer than the message limit of the setup */
    SOMEIP_NO_MEMORY = 31,       /* memory ran out, and nothing has changed */
    SOMEIP_BAD_SHAPE = 32,       /* the text is no shape, or no payload can have it */
    SOMEIP_BAD_PAYLOAD = 33,     /* the payload is not the bytes of a value of the shape */
    SOMEIP_BAD_VALUE = 34        /* the text is no value of the shape, or none that a payload can have */
};

/* What a program holds of a node. Its fields are the library's own. */
typedef struct {
    bool held;
    void *at;
} someip_handle;

#define SOMEIP_HANDLE_INIT {false, NULL}

/* What a node has at an endpoint of its own. */
enum {
    SOMEIP_AT_DISCOVERY = 1, /* Service Discovery: its address and port 30490 */
    SOMEIP_AT_CLIENT = 2,    /* the client: its calls go out from here, answers and events come here */
    SOMEIP_AT_INSTANCE = 3,  /* an instance that it offers */
    SOMEIP_AT_GROUP = 4      /* the multicast group of Service Discovery: join it, and only receive here */
};

/* An IPv4 address, its four bytes as they are written, and a UDP port. */
typedef struct {
    uint8_t address[4];
    uint16_t port;
} someip_endpoint;

/* Which output it is, and which fields it has beside `kind`; all others are 0. "Payload" says that bytes
 * come with it. */
enum {
    SOMEIP_SENT = 1,         /* send the payload from `from` to `to` */
    SOMEIP_CALLED = 2,       /* a call was accepted: service, member (the method), session */
    SOMEIP_REQUEST = 3,      /* a request came: has_token, token, service, instance, member, payload */
    SOMEIP_ANSWERED = 4,     /* an answer came: service, member, session, code, payload */
    SOMEIP_TIMED_OUT = 5,    /* no answer came in time: service, member, session */
    SOMEIP_EVENT = 6,        /* an event came: service, instance, member (the event), payload */
    SOMEIP_KNOWN = 7,        /* an instance can be called: service, instance, to (where it is) */
    SOMEIP_GONE = 8,         /* it can be called no longer: service, instance */
    SOMEIP_SUBSCRIBED = 9,   /* events can come: service, instance, eventgroup, counter */
    SOMEIP_UNSUBSCRIBED = 10, /* they can come no longer: service, instance, eventgroup */
    SOMEIP_ACCEPTED = 11,    /* a client subscribed: service, instance, eventgroup, to, counter */
    SOMEIP_NACKED = 12,      /* a client was refused: service, instance, eventgroup, reason */
    SOMEIP_REBOOTED = 13,    /* a peer began again: from (its address; the port is 0) */
    SOMEIP_DROPPED = 14      /* something that came was not taken: reason, detail */
};

/*
 * reason of SOMEIP_NACKED: 1 not offered, 2 wrong major version, 3 unknown eventgroup, 4 no endpoint,
 * 5 no room for another subscriber.
 *
 * reason of SOMEIP_DROPPED, and detail of those that have one:
 *   1 it was the node's own          6 no endpoint                9 not subscribed
 *   2 no such port                   7 from another peer         10 an answer: 1 not pending, 2 wrong type
 *   3 not Service Discovery          8 not pending
 *   4 no room for another peer       5 a bad run of options
 *  11 a request: 1 unknown service, 2 wrong interface, 3 unknown method, 4 wrong type, 5 not ready
 *  12 a message: 1 truncated, 2 length too small, 3 wrong protocol version, 4 unknown message type
 *  13 a Service Discovery message: 1 truncated, 2 length of the entries, 3 unknown entry type,
 *     4 length of an option, 6 trailing bytes
 *  14 a segment: 1 unaligned, 2 too long, 3 in conflict with what came, 4 no slot, 6 no header
 */
typedef struct {
    uint32_t kind;
    uint32_t reason;
    uint32_t detail;
    uint32_t has_token; /* 1: an answer is awaited, and names the token; 0: none is */
    uint64_t token;
    size_t payload_length;
    someip_endpoint from;
    someip_endpoint to;
    uint16_t service;
    uint16_t instance;
    uint16_t member; /* a Method ID or an Event ID */
    uint16_t eventgroup;
    uint16_t session;
    uint16_t code; /* a Return Code */
    uint16_t counter;
} someip_output;

/* ---- the life of a node ---- */

/* Starts the node of a name in a setup (TOML, docs/RUNNING.md), and gives it to the handle, which must
 * have none. Its first Offers and Finds go out delay_ms after this: draw it at random, anew for each start
 * and restart, between the setup's initial_min and initial_max. The setup's own `delay` is not used.
 * A liar of the setup is no node: NO_SUCH_NODE.
 * HELD, NOT_TEXT, NOT_TOML to CLASH, NO_SUCH_NODE, BAD_DELAY, OUT_OF_MEMORY; the handle is then as before. */
uint32_t someip_start(someip_handle *node, const uint8_t *setup, size_t setup_length,
                      const uint8_t *name, size_t name_length, uint32_t delay_ms);

/* Writes the least and the greatest delay_ms that a start of a node of the setup takes: draw it between them,
 * both among them. NOT_TEXT, NOT_TOML to CLASH, OUT_OF_MEMORY: both are then as before. */
uint32_t someip_delays(const uint8_t *setup, size_t setup_length, uint32_t *least_ms, uint32_t *greatest_ms);

/* Writes one of the node's endpoints, by its index from 0, what is there, and of an instance its service and
 * instance (0 else). They are in this order: Service Discovery, the client, the instances by rising service and
 * instance, the group. CLOSED, and NOTHING_LEFT past the last, write nothing. */
uint32_t someip_endpoint_at(someip_handle *node, size_t index, someip_endpoint *endpoint, uint32_t *kind,
                            uint16_t *service, uint16_t *instance);

/* Begins the node's life anew, with the same configuration; its peers see a reboot. A node that failed
 * works again. Forget all sessions and tokens. It takes no memory. CLOSED, OUTPUTS_WAIT, BAD_DELAY. */
uint32_t someip_restart(someip_handle *node, uint32_t delay_ms);

/* Ends the node and frees its memory, with the outputs that were not taken. CLOSED. */
uint32_t someip_close(someip_handle *node);

/* ---- what comes, and what is given ----
 *
 * A call that gives outputs is refused as OUTPUTS_WAIT while outputs of an earlier one wait: take them
 * until NOTHING_LEFT. Each such call can also be refused as CLOSED and FAILED, and as OUT_OF_MEMORY: then
 * it gave nothing, and the node has failed until someip_restart. */

/* A UDP datagram came from an endpoint to another. It is never refused for its bytes: what cannot be taken
 * is told as SOMEIP_DROPPED. */
uint32_t someip_on_datagram(someip_handle *node, const someip_endpoint *from, const someip_endpoint *to,
                            const uint8_t *bytes, size_t length);

/* So many milliseconds have passed since the last tick. CLOCK_PAST. Where it gives nothing it takes no
 * memory. */
uint32_t someip_tick(someip_handle *node, uint64_t ms);

/* Writes after how many milliseconds from the last tick a tick next gives something, if nothing else
 * happens before. CLOSED; NOTHING_DUE where none will, and where the node has failed: due_ms is then as
 * before. It changes nothing of the node, and is not refused while outputs wait. */
uint32_t someip_next_due(someip_handle *node, uint64_t *due_ms);

/* Takes the next output: output is written, and its payload goes to the front of the buffer.
 * CLOSED and NOTHING_LEFT write nothing. BUFFER_TOO_SMALL writes output alone, whose payload_length says
 * how large the buffer must be, and the output waits on. */
uint32_t someip_take(someip_handle *node, someip_output *output, uint8_t *buffer, size_t buffer_length);

/* Writes the words by which a trace of `someipctl run` tells the next output, without the step's number and the
 * node, and leaves the output to someip_take. A datagram that is sent is told with this number. The text is no
 * C string: it goes to the front of the buffer, and text_length says how many bytes it has.
 * CLOSED and NOTHING_LEFT write nothing, and so does NO_MEMORY. BUFFER_TOO_SMALL writes text_length alone. */
uint32_t someip_next_text(someip_handle *node, size_t number, uint8_t *buffer, size_t buffer_length,
                          size_t *text_length);

/* ---- what the application does ---- */

/* Does one step of a schedule (docs/RUNNING.md), which is written without the node, as `call 1111.0001 0421 0102`
 * or `restart 10`: it is as the function of its name below, someip_restart or someip_call. BAD_STEP where the line
 * is no step, or is of `tick`, `deliver` or `inject`. OUTPUTS_WAIT comes before it, NO_MEMORY may come in place of
 * any other. PAYLOAD_TOO_LONG for a payload past the message limit, also where the call would be refused for
 * another reason; never TOO_LONG. */
uint32_t someip_do(someip_handle *node, const uint8_t *line, size_t length);

/* Calls a method of an instance that the node wants. With waits an answer is awaited: SOMEIP_CALLED tells
 * its session. NOT_OFFERED, TOO_LONG, BUSY, by the first that holds. */
uint32_t someip_call(someip_handle *node, bool waits, uint16_t service, uint16_t instance, uint16_t method,
                     const uint8_t *payload, size_t length);

/* Answers the request of a token, by a RESPONSE or, with is_error, by an ERROR.
 * UNKNOWN_TOKEN, BAD_ERROR_CODE, TOO_LONG, by the first that holds. */
uint32_t someip_answer(someip_handle *node, uint64_t token, bool is_error, uint8_t code,
                       const uint8_t *payload, size_t length);

/* Publishes an event of an instance that the node offers, to all that are subscribed.
 * NOT_OFFERED, UNKNOWN_EVENT, TOO_LONG, by the first that holds. */
uint32_t someip_publish(someip_handle *node, uint16_t service, uint16_t instance, uint16_t event,
                        const uint8_t *payload, size_t length);

/* Publishes an event to one endpoint that is subscribed to an eventgroup, as the first value of a field.
 * NOT_OFFERED, UNKNOWN_EVENT, TOO_LONG, NOT_SUBSCRIBED, by the first that holds. */
uint32_t someip_publish_to(someip_handle *node, uint16_t service, uint16_t instance, uint16_t eventgroup,
                           const someip_endpoint *endpoint, uint16_t event,
                           const uint8_t *payload, size_t length);

/* Wishes an eventgroup of an instance that the node wants, and takes the wish back. NOT_WANTED. */
uint32_t someip_subscribe(someip_handle *node, uint16_t service, uint16_t instance, uint16_t eventgroup);
uint32_t someip_unsubscribe(someip_handle *node, uint16_t service, uint16_t instance, uint16_t eventgroup);

/* Stops the offer of an instance until the next restart. NOT_OFFERED. */
uint32_t someip_stop_offer(someip_handle *node, uint16_t service, uint16_t instance);

/* ---- texts ----
 *
 * Each goes to the front of the buffer, with its length to text_length, and has no 0 at its end.
 * BUFFER_TOO_SMALL writes text_length alone, and each other refusal nothing. */

/* The name of an outcome, as NotOffered, and no text (text_length is 0) for a number that is none. */
uint32_t someip_outcome_text(uint32_t outcome, uint8_t *buffer, size_t buffer_length, size_t *text_length);

/* What a trace tells of a call with this outcome, as `refused NotOffered`, and no text where a trace has no such
 * line: the call was done, the step was a bad one, or the node failed. */
uint32_t someip_refusal_text(uint32_t outcome, uint8_t *buffer, size_t buffer_length, size_t *text_length);

/* Why a text is no setup, in the words of `someipctl`, as `Missing group`, and no text where it is one.
 * OUT_OF_MEMORY. */
uint32_t someip_setup_fault(const uint8_t *setup, size_t setup_length, uint8_t *buffer, size_t buffer_length,
                            size_t *text_length);

/* The setup to play the log of a node again with: what all nodes of the setup share, the node of the name alone,
 * with this delay, and for each peer's address (the ports are not looked at) a liar. The liars are named, in the
 * order of the peers, by the first of p1, p2, .. that is not the node's name. NOT_TEXT, NOT_TOML to CLASH,
 * NO_SUCH_NODE, BAD_DELAY, OUT_OF_RANGE for more than 63 peers, CLASH for a peer twice, at the node's own address
 * or at the group's, and OUT_OF_MEMORY. */
uint32_t someip_log_setup(const uint8_t *setup, size_t setup_length, const uint8_t *name, size_t name_length,
                          uint32_t delay_ms, const someip_endpoint *peers, size_t peer_count,
                          uint8_t *buffer, size_t buffer_length, size_t *text_length);

/* The value of a payload as text, by a shape (docs/FORMATS.md): 41 a4 00 00 03 by the shape
 * `struct(speed:f32,gear:u8{0=P,3=D})` is `(speed=20.5,gear=D)`. The value takes the whole payload.
 * NOT_TEXT, BAD_SHAPE, BAD_PAYLOAD, OUT_OF_MEMORY. */
uint32_t someip_payload_text(const uint8_t *shape, size_t shape_length, const uint8_t *payload, size_t payload_length,
                             uint8_t *buffer, size_t buffer_length, size_t *text_length);

/* The payload of a value that a text tells, by a shape: its bytes go to the front of the buffer.
 * NOT_TEXT, BAD_SHAPE, BAD_VALUE, OUT_OF_MEMORY. */
uint32_t someip_payload_bytes(const uint8_t *shape, size_t shape_length, const uint8_t *value, size_t value_length,
                              uint8_t *buffer, size_t buffer_length, size_t *payload_length);

#ifdef __cplusplus
}
#endif

#endif
