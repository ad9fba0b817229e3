/* Offers a service: it answers a method, and publishes an event of 3000 bytes, which goes out in segments. */
#include "carry.h"

#include <stdio.h>
#include <string.h>

/* What is still to be done for the application, once the outputs of a call are taken. */
static struct {
    bool asked;
    uint64_t token;
    uint8_t argument[4];
    bool subscribed;
    bool answered;
    bool published;
    unsigned turns_left;
} todo = {.turns_left = 100};

static void take(const someip_output *output, const uint8_t *payload) {
    if (output->kind == SOMEIP_REQUEST && output->member == METHOD && output->has_token == 1
        && output->payload_length == sizeof todo.argument) {
        todo.asked = true;
        todo.token = output->token;
        memcpy(todo.argument, payload, sizeof todo.argument);
    }
    if (output->kind == SOMEIP_ACCEPTED && output->eventgroup == EVENTGROUP)
        todo.subscribed = true;
    if (output->kind == SOMEIP_DROPPED && output->reason != 1)
        fprintf(stderr, "offerer: dropped, reason %u, detail %u\n", output->reason, output->detail);
}

/* The answer is the argument the other way round. */
static uint32_t answer(someip_handle *node) {
    uint8_t turned[4];
    for (size_t i = 0; i < sizeof turned; i++)
        turned[i] = todo.argument[3 - i];
    todo.asked = false;
    todo.answered = true;
    printf("method %04x: %02x%02x%02x%02x -> %02x%02x%02x%02x\n", METHOD, todo.argument[0], todo.argument[1],
           todo.argument[2], todo.argument[3], turned[0], turned[1], turned[2], turned[3]);
    return someip_answer(node, todo.token, false, 0, turned, sizeof turned);
}

static uint32_t publish(someip_handle *node) {
    static uint8_t bytes[EVENT_LENGTH];
    fill_event(bytes);
    todo.published = true;
    printf("event %04x: %u bytes, sum %u\n", EVENT, EVENT_LENGTH, sum_of(bytes, sizeof bytes));
    return someip_publish(node, SERVICE, INSTANCE, EVENT, bytes, sizeof bytes);
}

/* One call a turn. When all is done it goes on for some turns, and then stops its offer. */
static bool act(someip_handle *node) {
    if (todo.asked) {
        must("someip_answer", answer(node));
        return true;
    }
    if (todo.subscribed && !todo.published) {
        must("someip_publish", publish(node));
        return true;
    }
    if (!todo.answered || !todo.published || todo.turns_left-- > 0)
        return true;
    must("someip_stop_offer", someip_stop_offer(node, SERVICE, INSTANCE));
    return false;
}

int main(void) {
    const struct place place = {"offerer", "127.0.0.1", {30509, 40000}};
    return run_node(&place, take, act, 10000) ? 0 : 1;
}
