#include "wire.h"

#include "counts.h"

#include <arpa/inet.h>
#include <errno.h>
#include <net/if.h>
#include <netinet/in.h>
#include <stdio.h>
#include <stdlib.h>
#include <string.h>
#include <sys/socket.h>
#include <unistd.h>

static struct sockaddr_in address_of(const someip_endpoint *endpoint) {
    struct sockaddr_in address = {.sin_family = AF_INET, .sin_port = htons(endpoint->port)};
    memcpy(&address.sin_addr, endpoint->address, sizeof endpoint->address);
    return address;
}

static someip_endpoint endpoint_of(const struct sockaddr_in *address) {
    someip_endpoint endpoint = {.port = ntohs(address->sin_port)};
    memcpy(endpoint.address, &address->sin_addr, sizeof endpoint.address);
    return endpoint;
}

/* Tells why an endpoint cannot be had. */
static bool refuse(const someip_endpoint *at, const char *what) {
    int reason = errno;
    char text[INET_ADDRSTRLEN];
    inet_ntop(AF_INET, at->address, text, sizeof text);
    fprintf(stderr, "someip-node: %s:%u: %s: %s\n", text, at->port, what, strerror(reason));
    return false;
}

/* By what interface multicast goes: of an index, or, where that is 0, of the node's address. */
static struct ip_mreqn interface_of(const struct wire *wire, int index) {
    struct ip_mreqn by = {.imr_ifindex = index};
    if (index == 0)
        memcpy(&by.imr_address, wire->discovery.address, 4);
    memcpy(&by.imr_multiaddr, wire->group.address, 4);
    return by;
}

/* What is set before a socket is bound. Multicast is heard by other nodes of this machine too. A socket of the group takes
 * what came by the interface that it joined at alone, and shares its endpoint with those of other nodes. */
static bool set_up(const struct wire *wire, int fd, int index, bool is_group) {
    struct ip_mreqn by = interface_of(wire, index);
    int on = 1, off = 0;
    if (!is_group)
        return setsockopt(fd, IPPROTO_IP, IP_MULTICAST_IF, &by, sizeof by) == 0
               && setsockopt(fd, IPPROTO_IP, IP_MULTICAST_LOOP, &on, sizeof on) == 0;
    return setsockopt(fd, SOL_SOCKET, SO_REUSEADDR, &on, sizeof on) == 0
           && setsockopt(fd, IPPROTO_IP, IP_MULTICAST_ALL, &off, sizeof off) == 0
           && setsockopt(fd, IPPROTO_IP, IP_ADD_MEMBERSHIP, &by, sizeof by) == 0;
}

static bool open_place(struct wire *wire, const someip_endpoint *at, bool is_group, int index) {
    struct sockaddr_in address = address_of(at);
    struct place *places = realloc(wire->places, (wire->count + 1) * sizeof *places);
    if (places == NULL)
        return refuse(at, "socket");
    wire->places = places;
    int fd = socket(AF_INET, SOCK_DGRAM | SOCK_NONBLOCK | SOCK_CLOEXEC, 0);
    if (fd < 0)
        return refuse(at, "socket");
    places[wire->count++] = (struct place){.fd = fd, .at = *at};
    /* (as much as the system gives for datagrams that come at once) */
    setsockopt(fd, SOL_SOCKET, SO_RCVBUF, &(int){4 << 20}, sizeof(int));
    if (!set_up(wire, fd, index, is_group))
        return refuse(at, is_group ? "join" : "multicast");
    if (bind(fd, (struct sockaddr *)&address, sizeof address) != 0)
        return refuse(at, "bind");
    if (!is_group)
        wire->by_port[at->port] = fd;
    return true;
}

bool wire_open(struct wire *wire, someip_handle *node, const char *interface) {
    someip_endpoint at;
    uint32_t kind;
    uint16_t service, instance;
    int index = interface == NULL ? 0 : (int)if_nametoindex(interface);
    memset(wire, 0, sizeof *wire);
    for (size_t port = 0; port < 65536; port++)
        wire->by_port[port] = -1;
    if (interface != NULL && index == 0) {
        fprintf(stderr, "someip-node: %s: %s\n", interface, strerror(errno));
        return false;
    }
    for (size_t i = 0; someip_endpoint_at(node, i, &at, &kind, &service, &instance) == SOMEIP_DONE; i++) {
        if (kind == SOMEIP_AT_DISCOVERY)
            wire->discovery = at;
        if (kind == SOMEIP_AT_GROUP)
            wire->group = at;
    }
    for (size_t i = 0; someip_endpoint_at(node, i, &at, &kind, &service, &instance) == SOMEIP_DONE; i++)
        if (!open_place(wire, &at, kind == SOMEIP_AT_GROUP, index))
            return false;
    return true;
}

void wire_close(struct wire *wire) {
    for (size_t i = 0; i < wire->count; i++)
        close(wire->places[i].fd);
    free(wire->places);
    wire->places = NULL;
    wire->count = 0;
}

void wire_send(const struct wire *wire, const someip_output *output, const uint8_t *bytes) {
    struct sockaddr_in to = address_of(&output->to);
    int fd = wire->by_port[output->from.port];
    if (sendto(fd, bytes, output->payload_length, 0, (struct sockaddr *)&to, sizeof to) < 0)
        count_failure("send", errno);
}

/* Whether the node sees what came from there. */
static bool is_seen(struct wire *wire, const someip_endpoint *from) {
    if (memcmp(from->address, wire->discovery.address, 4) == 0)
        wire->dropped_own++;
    else if (from->port == 0)
        wire->dropped_zero++;
    else if (memcmp(from->address, wire->group.address, 4) == 0)
        wire->dropped_group++;
    else
        return true;
    return false;
}

/* What came at one socket, as wire_receive. */
static long receive_at(struct wire *wire, const struct place *place, uint8_t *bytes, someip_endpoint *from) {
    struct sockaddr_in sender;
    socklen_t size = sizeof sender;
    ssize_t length = recvfrom(place->fd, bytes, DATAGRAM_MOST + 1, 0, (struct sockaddr *)&sender, &size);
    if (length < 0 && errno != EAGAIN && errno != EWOULDBLOCK && errno != EINTR)
        count_failure("receive", errno);
    if (length < 0)
        return NOTHING_CAME;
    *from = endpoint_of(&sender);
    return is_seen(wire, from) ? (long)length : LEFT_OUT;
}

long wire_receive(struct wire *wire, uint8_t bytes[DATAGRAM_MOST + 1], someip_endpoint *from, someip_endpoint *to) {
    for (size_t looked = 0; looked < wire->count; looked++) {
        const struct place *place = &wire->places[wire->next];
        wire->next = (wire->next + 1) % wire->count;
        long length = receive_at(wire, place, bytes, from);
        *to = place->at;
        if (length != NOTHING_CAME)
            return length;
    }
    return NOTHING_CAME;
}
