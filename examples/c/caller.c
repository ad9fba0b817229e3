/* Uses the service of the offerer: it calls the method once, and waits for one event. */
#include "carry.h"

#include <stdio.h>

static const uint8_t argument[4] = {0x01, 0x02, 0x03, 0x04};

static struct {
    bool wished;
    bool known;
    bool called;
    bool answered;
    bool evented;
    bool ended;
    uint16_t session;
} seen;

static void take(const someip_output *output, const uint8_t *payload) {
    switch (output->kind) {
    case SOMEIP_KNOWN:
        seen.known = true;
        break;
    case SOMEIP_CALLED:
        seen.session = output->session;
        break;
    case SOMEIP_ANSWERED:
        if (output->session == seen.session && output->code == 0 && output->payload_length == 4) {
            seen.answered = true;
            printf("method %04x: %02x%02x%02x%02x -> %02x%02x%02x%02x\n", output->member, argument[0], argument[1],
                   argument[2], argument[3], payload[0], payload[1], payload[2], payload[3]);
        }
        break;
    case SOMEIP_EVENT:
        seen.evented = true;
        printf("event %04x: %zu bytes, sum %u\n", output->member, output->payload_length,
               sum_of(payload, output->payload_length));
        break;
    case SOMEIP_TIMED_OUT:
        fprintf(stderr, "caller: no answer came in time\n");
        break;
    case SOMEIP_DROPPED:
        if (output->reason != 1)
            fprintf(stderr, "caller: dropped, reason %u, detail %u\n", output->reason, output->detail);
        break;
    case SOMEIP_GONE:
        seen.ended = true;
        break;
    default:
        break;
    }
}

/* One call a turn. */
static bool act(someip_handle *node) {
    if (!seen.wished) {
        seen.wished = true;
        must("someip_subscribe", someip_subscribe(node, SERVICE, INSTANCE, EVENTGROUP));
        return true;
    }
    if (seen.known && !seen.called) {
        seen.called = true;
        must("someip_call", someip_call(node, true, SERVICE, INSTANCE, METHOD, argument, sizeof argument));
        return true;
    }
    return !(seen.answered && seen.evented && seen.ended);
}

int main(void) {
    const struct place place = {"caller", "127.0.0.2", {40001, 0}};
    return run_node(&place, take, act, 10000) ? 0 : 1;
}
