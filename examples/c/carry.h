/* Carries the datagrams of one node: UDP sockets on the loopback interface, and a clock. */
#ifndef CARRY_H
#define CARRY_H

#include "someip.h"

/* The service of the two programs, as setup.toml says it. */
enum { SERVICE = 0x1111, INSTANCE = 1, METHOD = 0x0421, EVENT = 0x8001, EVENTGROUP = 1, EVENT_LENGTH = 3000 };

/* Where a node is reached: its address, the ports of its sockets and the group of Service Discovery. */
struct place {
    const char *name;
    const char *address;
    uint16_t ports[2]; /* beside 30490; 0: none */
};

/* What the program does with an output. It calls the node later, in `act`: the outputs of one call are all
 * taken before the next call. */
typedef void take_output(const someip_output *output, const uint8_t *payload);

/* What the program does after all outputs were taken. It answers false when it is done. */
typedef bool act_on(someip_handle *node);

/* Starts the node of setup.toml and runs it, until `act` is done or `limit_ms` have passed. It answers
 * whether it was done. */
bool run_node(const struct place *place, take_output *take, act_on *act, uint64_t limit_ms);

/* The bytes of the event, and the sum that both programs print of them. */
void fill_event(uint8_t bytes[EVENT_LENGTH]);
unsigned sum_of(const uint8_t *bytes, size_t length);

/* Ends the program where a call was refused. */
void must(const char *call, uint32_t outcome);

#endif
