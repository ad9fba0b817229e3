/* Refuses growths of a node's memory, one after the other, and judges what the node does then. `sweeps/run memory`
   builds it over the library for C, whose three functions of memory it gives.

   The calls of two nodes are made, each with a node of its own: of the one that offers the instance of the worked run,
   `examples/runs/two.txt`, and of the one that wants it. Among them is their part of that run. First all calls are made
   with ample memory: their outcomes and outputs are those of a new node. Then growth 1 is refused, 2, and so on, until
   none is met. The call that is refused memory answers OUT_OF_MEMORY and gives nothing. Then every other call, but a
   restart, answers FAILED. After a restart, which takes no memory, all calls are made once more, and answer as those
   of a new node. A line that cannot be read for want of memory answers NO_MEMORY, and a start that is refused leaves
   its handle; both are made again.

   It prints how many growths were refused and how many of these failed a call, or a line for each finding, and then
   its exit status is 1. */
#include "someip.h"
#include <stdio.h>
#include <stdlib.h>
#include <string.h>

struct tried {
    bool ok;
    uint8_t *at;
};

static uint8_t nothing;
static long seen, refused;

/* Whether this growth is the one that is refused. */
static bool is_refused(void) { return ++seen == refused; }

static struct tried told(void *block) {
    struct tried answer = {block != NULL, block != NULL ? block : &nothing};
    return answer;
}

struct tried rattle_alloc(size_t size, size_t align) {
    (void)align;
    return told(is_refused() ? NULL : malloc(size != 0 ? size : 1));
}

struct tried rattle_realloc(uint8_t *block, size_t kept, size_t size, size_t align) {
    (void)kept;
    (void)align;
    return told(is_refused() ? NULL : realloc(block, size != 0 ? size : 1));
}

void rattle_dealloc(uint8_t *block) { free(block); }

/* A node by its setup, and what is done with it, a line each: `tick MS`; `datagram FROM TO HEX AA`, a datagram with so many
   bytes aa more, between ports of hosts 192.168.0.n, where host 0 is the group; or a step of a schedule. */
struct subject {
    const char *name;
    const char *setup;
    const char *acts[64];
};

#define SUBSCRIBE                                                                                                      \
    "ffff8100000000300000000101010200c000000000000010060000101111000101000003000000010000000c00090400c0a8000200119c41"
#define OFFER                                                                                                          \
    "ffff8100000000300000000101010200c000000000000010010000101111000101000003000000000000000c00090400c0a800010011772d"

static const struct subject server = {
    "a",
    "group = \"239.0.0.1\"\n[[node]]\nname = \"a\"\naddress = \"192.168.0.1\"\nclient_id = 0x0101\n"
    "client_port = 40000\n[[node.offer]]\nservice = 0x1111\ninstance = 1\nmajor = 1\nttl = 3\nport = 30509\n"
    "methods = [0x0421]\noneways = [0x0422]\nevents = [{ id = 0x8001, groups = [1] }]\n",
    {
        "tick 10",
        "datagram 2:40001 1:30509 111104210000000a01020001010100000102 0",
        "datagram 2:40001 1:30509 11110421000000080102000201010000 0",
        "datagram 2:40001 1:30509 11110422000000080102000301010100 0",
        /* An unknown method. */
        "datagram 2:40001 1:30509 11110499000000080102000401010000 0",
        "answer 1 00 03",
        "publish 1111.0001 8001 2a",
        "datagram 2:30490 1:30490 " SUBSCRIBE " 0",
        "publish 1111.0001 8001 2a",
        "answer 2 00 bb*3000",
        /* The end of that subscription, a Subscribe of an unknown eventgroup, and a Find of any instance. */
        "datagram 2:30490 1:30490 ffff8100000000300000000201010200c000000000000010060000101111000101000000000000010000000"
        "c00090400c0a8000200119c41 0",
        "datagram 2:30490 1:30490 ffff8100000000300000000301010200c000000000000010060000101111000101000003000000090000000"
        "c00090400c0a8000200119c41 0",
        "datagram 2:30490 0:30490 "
        "ffff8100000000240000000401010200c000000000000010000000001111ffffff000003ffffffff00000000 0",
        "tick 30",
        "tick 60",
        "datagram 2:30490 1:30490 " SUBSCRIBE " 0",
        "publish_to 1111.0001 0001 192.168.0.2:40001 8001 2b",
        /* A request in two segments, and a datagram that is cut off. */
        "datagram 2:40001 1:30509 111104210000057c010200050101200000000001 1392",
        "datagram 2:40001 1:30509 1111042100000070010200050101200000000570 100",
        "error 3 01 -",
        "datagram 2:40001 1:30509 1111 0",
        "stop_offer 1111.0001",
        "datagram 2:40001 1:30509 11110421000000080102000601010000 0",
        "restart 10",
        "tick 10",
        "datagram 2:30490 1:30490 " SUBSCRIBE " 0",
        "datagram 2:40001 1:30509 11110421000000080102000701010000 0",
        "publish 1111.0001 8001 2c",
        NULL,
    },
};

static const struct subject client = {
    "b",
    "group = \"239.0.0.1\"\n[[node]]\nname = \"b\"\naddress = \"192.168.0.2\"\nclient_id = 0x0102\n"
    "client_port = 40001\n[[node.want]]\nservice = 0x1111\ninstance = 1\nmajor = 1\nttl = 3\n"
    "groups = [{ id = 1, events = [0x8001] }]\n",
    {
        "tick 10",
        "datagram 1:30490 0:30490 " OFFER " 0",
        "call 1111.0001 0421 0102",
        "datagram 1:30509 2:40001 1111042100000009010200010101800003 0",
        "subscribe 1111.0001 0001",
        /* The Ack, and an event. */
        "datagram 1:30490 2:30490 "
        "ffff8100000000240000000101010200c0000000000000100700000011110001010000030000000100000000 0",
        "datagram 1:30509 2:40001 111180010000000900000001010102002a 0",
        "oneway 1111.0001 0422 01",
        "call 1111.0001 0421 -",
        /* Its answer in two segments. */
        "datagram 1:30509 2:40001 111104210000057c010200020101a00000000001 1392",
        "datagram 1:30509 2:40001 1111042100000070010200020101a00000000570 100",
        "call 1111.0001 0421 -",
        "call 1111.0001 0423 -",
        "datagram 1:30509 2:40001 11110421000000080102000301018101 0",
        "datagram 1:30509 2:40001 11110421000000080102000301018101 0",
        "tick 2000",
        /* A Nack. */
        "datagram 1:30490 2:30490 "
        "ffff8100000000240000000201010200c0000000000000100700000011110001010000000000000100000000 0",
        "unsubscribe 1111.0001 0001",
        "subscribe 1111.0001 0001",
        /* The server began again; then it stops its offer, and sends what is no message. */
        "datagram 1:30490 0:30490 " OFFER " 0",
        "call 1111.0001 0421 05",
        "datagram 1:30490 0:30490 ffff8100000000300000000201010200c000000000000010010000101111000101000000000000000000000"
        "c00090400c0a800010011772d 0",
        "datagram 1:30490 0:30490 ffff81 0",
        "restart 10",
        "datagram 1:30490 0:30490 " OFFER " 0",
        "call 1111.0001 0421 0102",
        "subscribe 1111.0001 0001",
        "tick 4000",
        NULL,
    },
};

/* What a call answered: its outcome, and its outputs with their payloads, as they stand in memory. */
struct answer {
    uint32_t outcome;
    size_t length;
    uint8_t bytes[20000];
};

static struct answer expected[64], given;
static int findings;
static long growths, judged;

static void find(const struct subject *of, const char *act, const char *what) {
    printf("memory: node %s, growth %ld: %s: %s\n", of->name, refused, act, what);
    findings++;
}

static someip_endpoint endpoint(const char *text) {
    unsigned host = 0, port = 0;
    sscanf(text, "%u:%u", &host, &port);
    someip_endpoint at = {{192, 168, 0, (uint8_t)host}, (uint16_t)port};
    someip_endpoint group = {{239, 0, 0, 1}, (uint16_t)port};
    return host == 0 ? group : at;
}

/* A datagram comes, as a line says it. */
static uint32_t deliver(someip_handle *node, const char *act) {
    static uint8_t bytes[2000];
    char from[32], to[32], hex[400];
    unsigned more = 0, byte = 0;
    size_t length = 0;
    if (sscanf(act, "datagram %31s %31s %399s %u", from, to, hex, &more) != 4) return SOMEIP_BAD_STEP;
    for (const char *at = hex; sscanf(at, "%2x", &byte) == 1 && length < 200; at += 2) bytes[length++] = (uint8_t)byte;
    memset(bytes + length, 0xaa, more);
    someip_endpoint sender = endpoint(from), receiver = endpoint(to);
    return someip_on_datagram(node, &sender, &receiver, bytes, length + more);
}

static uint32_t act_on(someip_handle *node, const char *act) {
    if (strncmp(act, "tick ", 5) == 0) return someip_tick(node, strtoull(act + 5, NULL, 10));
    if (strncmp(act, "datagram ", 9) == 0) return deliver(node, act);
    return someip_do(node, (const uint8_t *)act, strlen(act));
}

/* Makes a call, and keeps what it answered. */
static void perform(someip_handle *node, const char *act, struct answer *to) {
    memset(to, 0, sizeof *to);
    to->outcome = act_on(node, act);
    for (;;) {
        someip_output output;
        uint8_t *at = to->bytes + to->length;
        size_t room = sizeof to->bytes - to->length;
        memset(&output, 0, sizeof output);
        if (room < sizeof output || someip_take(node, &output, at + sizeof output, room - sizeof output) != SOMEIP_DONE)
            return;
        memcpy(at, &output, sizeof output);
        to->length += sizeof output + output.payload_length;
    }
}

static bool is_as_expected(size_t place) {
    const struct answer *as = &expected[place];
    return given.outcome == as->outcome && given.length == as->length && memcmp(given.bytes, as->bytes, as->length) == 0;
}

/* Starts a node, once more where memory is refused to it; then its handle is as before. */
static bool start(someip_handle *node, const struct subject *of) {
    for (int turn = 0; turn < 2; turn++) {
        uint32_t outcome = someip_start(node, (const uint8_t *)of->setup, strlen(of->setup), (const uint8_t *)of->name,
                                        strlen(of->name), 10);
        if (outcome == SOMEIP_DONE) return true;
        if (outcome != SOMEIP_OUT_OF_MEMORY || seen < refused) break;
        judged++;
    }
    find(of, "start", "refused otherwise");
    return false;
}

/* Makes the calls from a place on, up to the first that does not answer as expected: its place, or that of the end. */
static size_t compare(someip_handle *node, const struct subject *of, size_t place) {
    for (; of->acts[place] != NULL; place++) {
        perform(node, of->acts[place], &given);
        if (!is_as_expected(place)) break;
    }
    return place;
}

/* A node that was refused memory has failed, until it is started again, which takes none. */
static void mend(someip_handle *node, const struct subject *of, const char *act) {
    for (size_t other = 0; of->acts[other] != NULL; other++) {
        if (strncmp(of->acts[other], "restart", 7) == 0) continue;
        perform(node, of->acts[other], &given);
        if (given.outcome != SOMEIP_FAILED || given.length != 0) find(of, of->acts[other], "is not refused as FAILED");
    }
    long before = seen;
    if (someip_restart(node, 10) != SOMEIP_DONE || seen != before) find(of, act, "is not mended without memory");
}

/* Judges the call at a place, which did not answer as expected. After one that failed the node is mended, and all calls are
   made again. Where memory ran out before the node was reached, nothing has changed, and the call is made again. */
static void judge(someip_handle *node, const struct subject *of, size_t place) {
    const char *act = of->acts[place];
    bool has_failed = given.outcome == SOMEIP_OUT_OF_MEMORY;
    if ((!has_failed && given.outcome != SOMEIP_NO_MEMORY) || given.length != 0 || seen < refused) {
        find(of, act, "answers otherwise");
        return;
    }
    judged++;
    if (has_failed) mend(node, of, act);
    place = compare(node, of, has_failed ? 0 : place);
    if (of->acts[place] != NULL) find(of, of->acts[place], "answers otherwise than that of a new node");
}

/* Refuses one growth after the other, until none is met. */
static void sweep(const struct subject *of) {
    refused = 0;
    someip_handle node = SOMEIP_HANDLE_INIT;
    if (!start(&node, of)) return;
    for (size_t place = 0; of->acts[place] != NULL; place++) {
        perform(&node, of->acts[place], &expected[place]);
        if (expected[place].outcome == SOMEIP_BAD_STEP) find(of, of->acts[place], "is no step");
    }
    someip_close(&node);
    for (refused = 1;; refused++) {
        seen = 0;
        if (start(&node, of)) {
            size_t place = compare(&node, of, 0);
            if (of->acts[place] != NULL) judge(&node, of, place);
            someip_close(&node);
        }
        if (seen < refused) return;
        growths++;
    }
}

int main(void) {
    sweep(&server);
    sweep(&client);
    printf("%ld %ld\n", growths, judged);
    return findings != 0;
}
