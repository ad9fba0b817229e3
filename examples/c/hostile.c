/* Hands hostile datagrams to the nodes of setup.toml, one after the other: random bytes, and messages that a
 * node takes, changed at random places. Run under AddressSanitizer, by the script `hostile`. */
#include "someip.h"

#include <stdio.h>
#include <stdlib.h>
#include <string.h>

#define SERVICE 0x1111
#define INSTANCE 1
#define METHOD 0x0421
#define EVENT 0x8001
#define GROUP 1

static uint64_t state = 88172645463325252ull;

/* A number below a bound (xorshift64). */
static uint32_t below(uint32_t bound) {
    state ^= state << 13;
    state ^= state >> 7;
    state ^= state << 17;
    return (uint32_t)(state >> 33) % bound;
}

/* A message, from which of the peers to which of the ports it goes, and the output that it brings as it is, if any. */
struct seed {
    const char *hex;
    unsigned peer, port;
    uint32_t gives;
};

/* A node, what comes to it, and what its application does. */
struct role {
    const char *name;
    struct seed seeds[6];
    someip_endpoint peers[2], ports[4];
    void (*act)(someip_handle *node, unsigned which);
};

static void fail(const char *what, uint32_t number) {
    fprintf(stderr, "%s: %u\n", what, number);
    exit(1);
}

static void must(uint32_t outcome, const char *call) {
    if (outcome != SOMEIP_DONE)
        fail(call, outcome);
}

/* What a node may refuse, as it may know no offer, but not for memory or since it failed. */
static void may(uint32_t outcome, const char *call) {
    if (outcome == SOMEIP_CLOSED || outcome == SOMEIP_FAILED || outcome == SOMEIP_OUT_OF_MEMORY)
        fail(call, outcome);
}

static void serve(someip_handle *node, unsigned which) {
    static const uint8_t value[3000];
    if (which % 2 == 0)
        must(someip_publish(node, SERVICE, INSTANCE, EVENT, value, below(sizeof value)), "someip_publish");
}

static void ask(someip_handle *node, unsigned which) {
    static const uint8_t value[3000];
    if (which % 2 == 0)
        must(someip_subscribe(node, SERVICE, INSTANCE, GROUP), "someip_subscribe");
    else
        may(someip_call(node, true, SERVICE, INSTANCE, METHOD, value, below(sizeof value)), "someip_call");
}

/* The offerer gets an Offer, a Subscribe, a request, the first segment of one, and nothing; the caller an Offer, an
 * Ack, an event, the answer to its call, the first segment of an event, and nothing. */
static const struct role roles[] = {
    {"offerer",
     {{"ffff8100000000300000000101010200c000000000000010010000101111000101000003000000000000000c000904007f000002"
       "00117a0d", 0, 1, 0},
      {"ffff8100000000300000000101010200c000000000000010060000101111000101000003000000010000000c000904007f000002"
       "00119c41", 0, 0, SOMEIP_ACCEPTED},
      {"111104210000001001020001010100000102030405060708", 1, 2, SOMEIP_REQUEST},
      {"111104210000001c010200020101200000000001000102030405060708090a0b0c0d0e0f", 1, 2, 0},
      {"", 1, 2, 0},
      {"", 1, 0, 0}},
     {{{127, 0, 0, 2}, 30490}, {{127, 0, 0, 2}, 40001}},
     {{{127, 0, 0, 1}, 30490}, {{239, 192, 255, 251}, 30490}, {{127, 0, 0, 1}, 30509}, {{127, 0, 0, 1}, 40000}},
     serve},
    {"caller",
     {{"ffff8100000000300000000101010200c000000000000010010000101111000101000003000000000000000c000904007f000001"
       "0011772d", 0, 1, SOMEIP_KNOWN},
      {"ffff8100000000240000000201010200c0000000000000100700000011110001010000030000000100000000", 0, 0,
       SOMEIP_SUBSCRIBED},
      {"111180010000000c000000010101020001020304", 1, 2, SOMEIP_EVENT},
      {"111104210000000c010200010101800001020304", 1, 2, SOMEIP_ANSWERED},
      {"111180010000001c000000020101220000000001000102030405060708090a0b0c0d0e0f", 1, 2, 0},
      {"", 1, 2, 0}},
     {{{127, 0, 0, 1}, 30490}, {{127, 0, 0, 1}, 30509}},
     {{{127, 0, 0, 2}, 30490}, {{239, 192, 255, 251}, 30490}, {{127, 0, 0, 2}, 40001}, {{127, 0, 0, 2}, 1}},
     ask},
};

static size_t from_hex(const char *hex, uint8_t *bytes) {
    size_t length = strlen(hex) / 2;
    for (size_t i = 0; i < length; i++) {
        unsigned byte;
        sscanf(hex + 2 * i, "%2x", &byte);
        bytes[i] = (uint8_t)byte;
    }
    return length;
}

/* A seed whose bytes, and maybe length, are changed. */
static size_t changed(const struct seed *seed, uint8_t *bytes, size_t size) {
    size_t length = from_hex(seed->hex, bytes);
    if (below(4) == 0) {
        size_t longer = below((uint32_t)size);
        for (size_t i = length; i < longer; i++)
            bytes[i] = (uint8_t)below(256);
        length = longer;
    }
    for (uint32_t changes = below(6); changes > 0 && length > 0; changes--)
        bytes[below((uint32_t)length)] = (uint8_t)below(256);
    return length;
}

/* Takes all outputs by buffers of their very length, at the end of a block, so that a byte more is told. Tells which
 * kinds came, a bit for each. */
static uint32_t take_all(someip_handle *node, unsigned long *taken) {
    uint32_t kinds = 0;
    for (;;) {
        someip_output output;
        uint8_t none;
        uint32_t outcome = someip_take(node, &output, &none, 0);
        if (outcome == SOMEIP_NOTHING_LEFT)
            return kinds;
        if (outcome == SOMEIP_BUFFER_TOO_SMALL) {
            uint8_t *exact = malloc(output.payload_length);
            if (exact == NULL)
                exit(1);
            must(someip_take(node, &output, exact, output.payload_length), "someip_take");
            free(exact);
        } else
            must(outcome, "someip_take");
        kinds |= 1u << output.kind;
        ++*taken;
    }
}

static void hand(someip_handle *node, const struct role *role, unsigned peer, unsigned port, const uint8_t *bytes,
                 size_t length) {
    must(someip_on_datagram(node, &role->peers[peer], &role->ports[port], bytes, length), "someip_on_datagram");
}

/* Hands each seed as it is: a changed one is then near what a node takes. */
static void take_seeds(someip_handle *node, const struct role *role, unsigned long *taken) {
    uint8_t bytes[64];
    for (unsigned i = 0; i < 6; i++) {
        const struct seed *seed = &role->seeds[i];
        role->act(node, i);
        take_all(node, taken);
        hand(node, role, seed->peer, seed->port, bytes, from_hex(seed->hex, bytes));
        uint32_t kinds = take_all(node, taken);
        if (kinds >> SOMEIP_DROPPED & 1 || (seed->gives != 0 && !(kinds >> seed->gives & 1)))
            fail("a seed is not taken as it is", i);
    }
}

static void play(const struct role *role, const uint8_t *setup, size_t setup_length, long datagrams) {
    someip_handle node = SOMEIP_HANDLE_INIT;
    unsigned long taken = 0;
    must(someip_start(&node, setup, setup_length, (const uint8_t *)role->name, strlen(role->name), 10),
         "someip_start");
    take_seeds(&node, role, &taken);
    for (long i = 0; i < datagrams; i++) {
        uint8_t *bytes = malloc(1500);
        if (bytes == NULL)
            exit(1);
        size_t length = changed(&role->seeds[below(6)], bytes, 1500);
        uint8_t *exact = realloc(bytes, length > 0 ? length : 1);
        hand(&node, role, below(2), below(4), exact, length);
        free(exact);
        take_all(&node, &taken);
        if (i % 16 == 0) {
            must(someip_tick(&node, below(200)), "someip_tick");
            take_all(&node, &taken);
            role->act(&node, below(2));
            take_all(&node, &taken);
        }
    }
    must(someip_close(&node), "someip_close");
    printf("%s: %ld datagrams, %lu outputs\n", role->name, datagrams, taken);
}

int main(int count, char **words) {
    static uint8_t setup[65536];
    FILE *file = fopen("setup.toml", "rb");
    if (file == NULL)
        return 1;
    size_t setup_length = fread(setup, 1, sizeof setup, file);
    fclose(file);
    for (unsigned i = 0; i < sizeof roles / sizeof roles[0]; i++)
        play(&roles[i], setup, setup_length, count > 1 ? atol(words[1]) : 100000);
    return 0;
}
