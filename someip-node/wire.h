/* The sockets of a node: one for each of its endpoints. */
#ifndef WIRE_H
#define WIRE_H

#include "someip.h"

#include <stdbool.h>
#include <stddef.h>
#include <stdint.h>

/* The most bytes of a UDP datagram over IPv4 (RFC 791, 3.1; RFC 768). */
enum { DATAGRAM_MOST = 65507 };

/* A socket, and the endpoint to which what comes there was sent. */
struct place {
    int fd;
    someip_endpoint at;
};

struct wire {
    struct place *places;
    size_t count;
    someip_endpoint discovery; /* the node's address and port 30490 */
    someip_endpoint group;
    int by_port[65536];     /* the socket of a port of the node's address; -1: none */
    size_t next;            /* the place that is looked at first for the next datagram */
    uint64_t dropped_own;   /* datagrams from the node's own address, */
    uint64_t dropped_zero;  /* from port 0, */
    uint64_t dropped_group; /* and from the group's address, which the node never saw */
};

/* Opens a socket for each endpoint of a node that was started. Multicast goes by the interface of that name, or, where it
 * is NULL, by that of the node's address. It answers false where the system refused one, and has told why. */
bool wire_open(struct wire *wire, someip_handle *node, const char *interface);

void wire_close(struct wire *wire);

/* Sends a datagram from the socket of the endpoint that it names. A send that fails is counted: the datagram is lost. */
void wire_send(const struct wire *wire, const someip_output *output, const uint8_t *bytes);

/* What wire_receive answers beside a length: no datagram is there, or one that the node never sees, which is counted. */
enum { NOTHING_CAME = -1, LEFT_OUT = -2 };

/* The next datagram that came, from whichever socket, in turn: its length, its sender and to where it was sent. */
long wire_receive(struct wire *wire, uint8_t bytes[DATAGRAM_MOST + 1], someip_endpoint *from, someip_endpoint *to);

#endif
