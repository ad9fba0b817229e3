#include "carry.h"

#include <arpa/inet.h>
#include <net/if.h>
#include <netinet/in.h>
#include <poll.h>
#include <stdio.h>
#include <stdlib.h>
#include <string.h>
#include <sys/socket.h>
#include <time.h>
#include <unistd.h>

#define GROUP "239.192.255.251"
enum { DISCOVERY_PORT = 30490, SOCKETS = 4, LARGEST = 65536 };

/* The sockets of a node, and where what comes to each was sent. The last is that of the group. */
struct sockets {
    struct pollfd polled[SOCKETS];
    someip_endpoint to[SOCKETS];
    size_t count;
};

static void give_up(const char *what) {
    perror(what);
    exit(2);
}

void must(const char *call, uint32_t outcome) {
    if (outcome != SOMEIP_DONE) {
        uint8_t name[32];
        size_t length = 0;
        someip_outcome_text(outcome, name, sizeof name, &length);
        fprintf(stderr, "%s: %.*s\n", call, (int)length, (const char *)name);
        exit(2);
    }
}

static uint64_t now_ms(void) {
    struct timespec at;
    clock_gettime(CLOCK_MONOTONIC, &at);
    return (uint64_t)at.tv_sec * 1000 + (uint64_t)at.tv_nsec / 1000000;
}

static struct sockaddr_in address_of(const someip_endpoint *endpoint) {
    struct sockaddr_in address = {.sin_family = AF_INET, .sin_port = htons(endpoint->port)};
    memcpy(&address.sin_addr, endpoint->address, sizeof endpoint->address);
    return address;
}

static someip_endpoint endpoint_of(const struct sockaddr_in *address) {
    someip_endpoint endpoint = {.port = ntohs(address->sin_port)};
    memcpy(endpoint.address, &address->sin_addr, sizeof endpoint.address);
    return endpoint;
}

/* A socket at an address, which sends to the group by the loopback interface. */
static int open_socket(struct sockets *sockets, const char *address, uint16_t port) {
    int on = 1;
    struct ip_mreqn loopback = {.imr_ifindex = (int)if_nametoindex("lo")};
    struct sockaddr_in at = {.sin_family = AF_INET, .sin_port = htons(port)};
    int fd = socket(AF_INET, SOCK_DGRAM, 0);
    if (fd < 0 || inet_pton(AF_INET, address, &at.sin_addr) != 1)
        give_up("socket");
    if (setsockopt(fd, SOL_SOCKET, SO_REUSEADDR, &on, sizeof on) != 0
        || setsockopt(fd, IPPROTO_IP, IP_MULTICAST_IF, &loopback, sizeof loopback) != 0)
        give_up("setsockopt");
    if (bind(fd, (struct sockaddr *)&at, sizeof at) != 0)
        give_up("bind");
    sockets->polled[sockets->count] = (struct pollfd){.fd = fd, .events = POLLIN};
    sockets->to[sockets->count++] = endpoint_of(&at);
    return fd;
}

static void open_sockets(struct sockets *sockets, const struct place *place) {
    struct ip_mreqn member = {.imr_ifindex = (int)if_nametoindex("lo")};
    open_socket(sockets, place->address, DISCOVERY_PORT);
    for (size_t i = 0; i < 2; i++)
        if (place->ports[i] != 0)
            open_socket(sockets, place->address, place->ports[i]);
    int group = open_socket(sockets, GROUP, DISCOVERY_PORT);
    inet_pton(AF_INET, GROUP, &member.imr_multiaddr);
    if (setsockopt(group, IPPROTO_IP, IP_ADD_MEMBERSHIP, &member, sizeof member) != 0)
        give_up("IP_ADD_MEMBERSHIP");
}

/* Sends a datagram from the socket of the endpoint that it names. */
static void send_from(const struct sockets *sockets, const someip_output *output, const uint8_t *bytes) {
    struct sockaddr_in to = address_of(&output->to);
    for (size_t i = 0; i < sockets->count; i++)
        if (memcmp(sockets->to[i].address, output->from.address, 4) == 0 && sockets->to[i].port == output->from.port
            && sendto(sockets->polled[i].fd, bytes, output->payload_length, 0, (struct sockaddr *)&to, sizeof to) < 0)
            give_up("sendto");
}

/* Takes all that the last call gave: datagrams are sent, and the program has the rest. */
static void take_all(someip_handle *node, const struct sockets *sockets, take_output *take) {
    static uint8_t payload[LARGEST];
    someip_output output;
    uint32_t outcome;
    while ((outcome = someip_take(node, &output, payload, sizeof payload)) == SOMEIP_DONE)
        if (output.kind == SOMEIP_SENT)
            send_from(sockets, &output, payload);
        else
            take(&output, payload);
    if (outcome != SOMEIP_NOTHING_LEFT)
        must("someip_take", outcome);
}

static size_t read_setup(uint8_t *text, size_t size) {
    FILE *file = fopen("setup.toml", "rb");
    if (file == NULL)
        give_up("setup.toml");
    size_t length = fread(text, 1, size, file);
    fclose(file);
    return length;
}

/* Waits for a datagram until the node's clock next gives something, and no longer than 20 ms. */
static void wait_for(someip_handle *node, struct sockets *sockets, uint64_t last) {
    uint64_t due = 20, passed = now_ms() - last;
    uint32_t outcome = someip_next_due(node, &due);
    if (outcome != SOMEIP_NOTHING_DUE)
        must("someip_next_due", outcome);
    due = due > 20 ? 20 : due;
    poll(sockets->polled, sockets->count, (int)(due > passed ? due - passed : 0));
}

bool run_node(const struct place *place, take_output *take, act_on *act, uint64_t limit_ms) {
    static uint8_t bytes[LARGEST];
    someip_handle node = SOMEIP_HANDLE_INIT;
    struct sockets sockets = {.count = 0};
    size_t setup_length = read_setup(bytes, sizeof bytes);
    if (someip_version() != SOMEIP_VERSION) {
        fprintf(stderr, "the library is not that of the header\n");
        exit(2);
    }
    open_sockets(&sockets, place);
    uint64_t begun = now_ms(), last = begun;
    must("someip_start", someip_start(&node, bytes, setup_length, (const uint8_t *)place->name, strlen(place->name),
                                      10 + (uint32_t)(begun % 91)));
    bool going = true;
    while (going && now_ms() - begun < limit_ms) {
        wait_for(&node, &sockets, last);
        uint64_t passed = now_ms() - last;
        last += passed;
        must("someip_tick", someip_tick(&node, passed));
        take_all(&node, &sockets, take);
        for (size_t i = 0; i < sockets.count; i++) {
            struct sockaddr_in from;
            socklen_t size = sizeof from;
            ssize_t length = recvfrom(sockets.polled[i].fd, bytes, sizeof bytes, MSG_DONTWAIT, (struct sockaddr *)&from, &size);
            if (length < 0)
                continue;
            someip_endpoint sender = endpoint_of(&from);
            must("someip_on_datagram", someip_on_datagram(&node, &sender, &sockets.to[i], bytes, (size_t)length));
            take_all(&node, &sockets, take);
        }
        going = act(&node);
        take_all(&node, &sockets, take);
    }
    must("someip_close", someip_close(&node));
    for (size_t i = 0; i < sockets.count; i++)
        close(sockets.polled[i].fd);
    return !going;
}

void fill_event(uint8_t bytes[EVENT_LENGTH]) {
    for (size_t i = 0; i < EVENT_LENGTH; i++)
        bytes[i] = (uint8_t)(i * 7 + i / 256);
}

unsigned sum_of(const uint8_t *bytes, size_t length) {
    unsigned sum = 1;
    for (size_t i = 0; i < length; i++)
        sum = (sum * 31 + bytes[i]) % 1000003;
    return sum;
}
