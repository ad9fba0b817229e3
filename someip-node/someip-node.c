/* someip-node: one node of a setup on a real network. The library decides all that a node does; here are its sockets, its
 * clock, its input and output, and its log. */
#include "counts.h"
#include "log.h"
#include "texts.h"
#include "wire.h"

#include <errno.h>
#include <fcntl.h>
#include <inttypes.h>
#include <poll.h>
#include <signal.h>
#include <stdio.h>
#include <stdlib.h>
#include <string.h>
#include <sys/random.h>
#include <time.h>
#include <unistd.h>

#ifndef SOMEIP_NODE_VERSION
#define SOMEIP_NODE_VERSION "0"
#endif

enum { DATAGRAMS_A_TURN = 64, LINE_MOST = 4 << 20, STEPS_MOST = 1000000 };

static const char *const USAGE = "Usage: someip-node [OPTIONS] <SETUP> <NODE>\n";
static const char *const HELP =
    "Runs a node of a setup on this machine's network\n\n"
    "Usage: someip-node [OPTIONS] <SETUP> <NODE>\n\n"
    "Arguments:\n"
    "  <SETUP>  The path of a setup\n"
    "  <NODE>   The name of a node in it that is no liar\n\n"
    "Options:\n"
    "      --interface <NAME>  Multicast goes by this interface, and not by that of the node's address\n"
    "      --delay <MS>        The initial delay, which else is drawn\n"
    "      --sent              Prints what is sent too\n"
    "      --log <FOLDER>      Writes a setup, a schedule and a trace there, which someipctl plays again\n"
    "      --log-steps <N>     Ends the log after so many steps (1000000)\n"
    "      --version           Prints the version\n"
    "  -h, --help              Prints this\n\n"
    "Each line of standard input is a step of a schedule without the node:\n"
    "  call 1111.0001 0421 0102\n"
    "Each line of standard output is a line of a trace without the step and the node:\n"
    "  answer 1111.0421 0001 00 03\n"
    "A signal TERM or INT stops the offers and ends it.\n"
    "What was logged is played again, and compared with what the node gave, by\n"
    "  someipctl run FOLDER/setup.toml FOLDER/schedule.txt --begins FOLDER/trace.txt\n";

/* What the words of the command line say. */
struct options {
    const char *interface, *delay, *folder, *steps, *setup, *name;
    bool sent;
};

/* All that the program has. */
struct program {
    struct options options;
    someip_handle node;
    struct wire wire;
    struct log log;
    uint8_t *setup;
    size_t setup_length;
    uint32_t least_ms, greatest_ms;
    uint64_t last_ms;   /* the moment of the last tick */
    uint64_t datagrams; /* how many were sent, and came */
    uint8_t *payload;
    size_t payload_size;
    struct text text;
    char *line; /* what was read of the next line of input */
    size_t line_length;
    bool is_line_long, has_input, cannot_write;
};

static int stopping[2];

static void stop(int signal) {
    int before = errno;
    (void)signal;
    if (write(stopping[1], "", 1) < 0)
        errno = before;
    errno = before;
}

static void give_up(int status, const char *format, const char *what, const char *why) {
    fprintf(stderr, format, what, why);
    exit(status);
}

static uint64_t now_ms(void) {
    struct timespec at;
    clock_gettime(CLOCK_MONOTONIC, &at);
    return (uint64_t)at.tv_sec * 1000 + (uint64_t)at.tv_nsec / 1000000;
}

/* A number between two, both among them. */
static uint32_t drawn(uint32_t least, uint32_t greatest) {
    uint64_t bits = 0;
    if (getrandom(&bits, sizeof bits, 0) != sizeof bits)
        bits = now_ms();
    return least + (uint32_t)(bits % ((uint64_t)greatest - least + 1));
}

/* ---- what the node gives ---- */

/* Prints a line, and notes where that failed. */
static void print_line(struct program *program, const uint8_t *words, size_t length) {
    if (fwrite(words, 1, length, stdout) != length || putchar('\n') == EOF || fflush(stdout) != 0)
        program->cannot_write = true;
}

/* Tells the next output in the words of a trace: to the log, and, but for what is sent, to standard output. */
static uint32_t tell_next(struct program *program) {
    struct text *text = &program->text;
    uint32_t outcome;
    do
        outcome = someip_next_text(&program->node, program->datagrams + 1, text->bytes, text->size, &text->length);
    while (text_grows(text, outcome));
    if (outcome == SOMEIP_DONE) {
        log_line(&program->log, text->bytes, text->length);
        bool is_sent = text->length > 5 && memcmp(text->bytes, "sent ", 5) == 0;
        if (!is_sent || program->options.sent)
            print_line(program, text->bytes, text->length);
    } else if (outcome != SOMEIP_NOTHING_LEFT) {
        log_end(&program->log, "out of memory");
    }
    return outcome;
}

/* Takes the next output, with room for its payload. */
static uint32_t take_next(struct program *program, someip_output *output) {
    uint32_t outcome = someip_take(&program->node, output, program->payload, program->payload_size);
    if (outcome != SOMEIP_BUFFER_TOO_SMALL)
        return outcome;
    uint8_t *larger = realloc(program->payload, output->payload_length);
    if (larger == NULL)
        give_up(3, "%s%s\n", "out of memory", "");
    program->payload = larger;
    program->payload_size = output->payload_length;
    return someip_take(&program->node, output, program->payload, program->payload_size);
}

/* Takes all that the last call gave. */
static void take_all(struct program *program) {
    someip_output output;
    while (tell_next(program) != SOMEIP_NOTHING_LEFT && take_next(program, &output) == SOMEIP_DONE)
        if (output.kind == SOMEIP_SENT) {
            program->datagrams++;
            wire_send(&program->wire, &output, program->payload);
        }
}

/* Memory ran out in a call, which gave nothing: the node begins anew. */
static void begin_anew(struct program *program) {
    char words[32];
    uint32_t delay = drawn(program->least_ms, program->greatest_ms);
    int length = snprintf(words, sizeof words, "restart %" PRIu32, delay);
    count_memory();
    if (someip_restart(&program->node, delay) == SOMEIP_DONE)
        log_step(&program->log, words, (size_t)length);
}

/* After a call whose step is in the log already. */
static void end_call(struct program *program, uint32_t outcome) {
    if (outcome != SOMEIP_DONE)
        log_undo(&program->log);
    if (outcome == SOMEIP_OUT_OF_MEMORY || outcome == SOMEIP_FAILED)
        begin_anew(program);
    take_all(program);
}

/* ---- what happens to it ---- */

static void tick(struct program *program) {
    char words[32];
    uint64_t passed = now_ms() - program->last_ms;
    if (passed == 0)
        return;
    program->last_ms += passed;
    int length = snprintf(words, sizeof words, "tick %" PRIu64, passed);
    log_step(&program->log, words, (size_t)length);
    end_call(program, someip_tick(&program->node, passed));
}

static void receive_some(struct program *program) {
    static uint8_t bytes[DATAGRAM_MOST + 1];
    someip_endpoint from, to;
    for (size_t i = 0; i < DATAGRAMS_A_TURN; i++) {
        long length = wire_receive(&program->wire, bytes, &from, &to);
        if (length == NOTHING_CAME)
            return;
        if (length == LEFT_OUT)
            continue;
        program->datagrams++;
        log_datagram(&program->log, program->datagrams, &from, &to, bytes, (size_t)length);
        end_call(program, someip_on_datagram(&program->node, &from, &to, bytes, (size_t)length));
    }
}

/* Tells why a line is no step that a run does. */
static void tell_bad_step(struct program *program, uint32_t outcome) {
    struct text *text = &program->text;
    uint32_t told;
    do
        told = someip_outcome_text(outcome, text->bytes, text->size, &text->length);
    while (text_grows(text, told));
    if (outcome == SOMEIP_NO_MEMORY)
        fprintf(stderr, "out of memory\n");
    else if (outcome == SOMEIP_BAD_STEP || told != SOMEIP_DONE)
        fprintf(stderr, "bad step\n");
    else
        fprintf(stderr, "bad step: %.*s\n", (int)text->length, (char *)text->bytes);
}

/* Does a step that was typed. It is logged where it is one that a run does, also where that refuses it. */
static void act(struct program *program, const char *words, size_t length) {
    struct text *text = &program->text;
    uint32_t outcome = someip_do(&program->node, (const uint8_t *)words, length), told;
    do
        told = someip_refusal_text(outcome, text->bytes, text->size, &text->length);
    while (text_grows(text, told));
    bool is_refused = told == SOMEIP_DONE && text->length > 0;
    if (outcome == SOMEIP_DONE || is_refused)
        log_step(&program->log, words, length);
    if (is_refused) {
        log_line(&program->log, text->bytes, text->length);
        print_line(program, text->bytes, text->length);
    } else if (outcome == SOMEIP_OUT_OF_MEMORY || outcome == SOMEIP_FAILED) {
        begin_anew(program);
    } else if (outcome != SOMEIP_DONE) {
        tell_bad_step(program, outcome);
    }
    take_all(program);
}

/* Ends a line of input. Empty lines and comments are skipped, as in a schedule. */
static void end_line(struct program *program) {
    if (program->is_line_long)
        fprintf(stderr, "bad step\n");
    else if (program->line_length > 0 && program->line[0] != '#')
        act(program, program->line, program->line_length);
    program->line_length = 0;
    program->is_line_long = false;
}

static void read_input(struct program *program) {
    char bytes[65536];
    ssize_t length = read(STDIN_FILENO, bytes, sizeof bytes);
    if (length < 0 && (errno == EINTR || errno == EAGAIN || errno == EWOULDBLOCK))
        return;
    if (length <= 0) {
        program->has_input = false;
        end_line(program);
        return;
    }
    for (ssize_t i = 0; i < length; i++)
        if (bytes[i] == '\n')
            end_line(program);
        else if (program->line_length < LINE_MOST)
            program->line[program->line_length++] = bytes[i];
        else
            program->is_line_long = true;
}

/* Stops each offer that is left, so that peers hear of it. */
static void stop_offers(struct program *program) {
    someip_endpoint at;
    uint32_t kind;
    uint16_t service, instance;
    char words[32];
    for (size_t i = 0; someip_endpoint_at(&program->node, i, &at, &kind, &service, &instance) == SOMEIP_DONE; i++)
        if (kind == SOMEIP_AT_INSTANCE) {
            int length = snprintf(words, sizeof words, "stop_offer %04x.%04x", service, instance);
            act(program, words, (size_t)length);
        }
}

/* How long to wait: until the clock gives something; -1 for as long as it takes. */
static int wait_ms(struct program *program) {
    uint64_t due = 0, passed = now_ms() - program->last_ms;
    if (someip_next_due(&program->node, &due) != SOMEIP_DONE)
        return -1;
    uint64_t left = due > passed ? due - passed : 0;
    return left > 3600000 ? 3600000 : (int)left;
}

/* The loop: until a signal comes, or standard output cannot be written. */
static void run(struct program *program) {
    size_t count = program->wire.count;
    struct pollfd *polled = calloc(count + 2, sizeof *polled);
    if (polled == NULL)
        give_up(3, "%s%s\n", "out of memory", "");
    for (size_t i = 0; i < count; i++)
        polled[i] = (struct pollfd){.fd = program->wire.places[i].fd, .events = POLLIN};
    polled[count] = (struct pollfd){.fd = stopping[0], .events = POLLIN};
    while (!program->cannot_write) {
        polled[count + 1] = (struct pollfd){.fd = program->has_input ? STDIN_FILENO : -1, .events = POLLIN};
        poll(polled, count + 2, wait_ms(program));
        if (polled[count].revents != 0)
            break;
        tick(program);
        receive_some(program);
        if (polled[count + 1].revents != 0)
            read_input(program);
    }
    free(polled);
}

/* ---- the beginning ---- */

static void read_setup(struct program *program) {
    const char *path = program->options.setup;
    FILE *file = fopen(path, "rb");
    size_t size = 65536;
    program->setup = malloc(size);
    while (file != NULL && program->setup != NULL) {
        program->setup_length += fread(program->setup + program->setup_length, 1, size - program->setup_length, file);
        if (program->setup_length < size)
            break;
        size *= 2;
        program->setup = realloc(program->setup, size);
    }
    if (program->setup == NULL)
        give_up(3, "%s%s\n", "out of memory", "");
    if (file == NULL || ferror(file) || fclose(file) != 0)
        give_up(4, "cannot read %s%s\n", path, "");
}

/* Ends the program where the setup is none. */
static void judge_setup(struct program *program) {
    struct text *text = &program->text;
    uint32_t outcome;
    do
        outcome = someip_setup_fault(program->setup, program->setup_length, text->bytes, text->size, &text->length);
    while (text_grows(text, outcome));
    if (outcome != SOMEIP_DONE)
        give_up(3, "%s%s\n", "out of memory", "");
    if (text->length > 0) {
        fprintf(stderr, "setup: %.*s\n", (int)text->length, (char *)text->bytes);
        exit(1);
    }
    if (someip_delays(program->setup, program->setup_length, &program->least_ms, &program->greatest_ms) != SOMEIP_DONE)
        give_up(3, "%s%s\n", "out of memory", "");
}

/* The number of an option, or the end of the program where it is none between two. */
static uint64_t number_of(const char *option, const char *text, uint64_t least, uint64_t greatest) {
    char *end;
    errno = 0;
    unsigned long long number = strtoull(text, &end, 10);
    if (text[0] < '0' || text[0] > '9' || *end != 0 || errno != 0 || number < least || number > greatest) {
        fprintf(stderr, "error: invalid value '%s' for '%s': %" PRIu64 " to %" PRIu64 "\n\n%s", text, option, least, greatest, USAGE);
        exit(2);
    }
    return number;
}

static void start(struct program *program) {
    const struct options *options = &program->options;
    uint32_t delay = drawn(program->least_ms, program->greatest_ms);
    if (options->delay != NULL)
        delay = (uint32_t)number_of("--delay <MS>", options->delay, program->least_ms, program->greatest_ms);
    uint32_t outcome = someip_start(&program->node, program->setup, program->setup_length, (const uint8_t *)options->name,
                                    strlen(options->name), delay);
    if (outcome == SOMEIP_NO_SUCH_NODE)
        give_up(1, "%s: no such node%s\n", options->name, "");
    if (outcome != SOMEIP_DONE)
        give_up(3, "%s%s\n", "out of memory", "");
    program->last_ms = now_ms();
    if (!wire_open(&program->wire, &program->node, options->interface))
        exit(4);
    program->log = (struct log){.setup = program->setup, .setup_length = program->setup_length, .name = options->name,
                                .delay_ms = delay, .steps_most = STEPS_MOST};
    if (options->steps != NULL)
        program->log.steps_most = number_of("--log-steps <N>", options->steps, 1, UINT32_MAX);
    if (options->folder != NULL && !log_begin(&program->log, options->folder))
        exit(4);
}

/* The value of an option that has one, behind `=` or as the next word; NULL where the word is another option. */
static const char *value_of(const char *option, char ***word) {
    size_t length = strlen(option);
    if (strncmp(**word, option, length) != 0)
        return NULL;
    if ((**word)[length] == '=')
        return **word + length + 1;
    if ((**word)[length] != 0)
        return NULL;
    if ((*word)[1] == NULL) {
        fprintf(stderr, "error: a value is required for '%s'\n\n%s", option, USAGE);
        exit(2);
    }
    return *++*word;
}

static void read_word(struct options *options, char ***word) {
    const struct { const char *name; const char **value; } valued[] = {
        {"--interface", &options->interface}, {"--delay", &options->delay}, {"--log", &options->folder}, {"--log-steps", &options->steps}};
    for (size_t i = 0; i < sizeof valued / sizeof *valued; i++) {
        const char *value = value_of(valued[i].name, word);
        if (value == NULL)
            continue;
        *valued[i].value = value;
        return;
    }
    if (strcmp(**word, "--sent") == 0)
        options->sent = true;
    else if ((**word)[0] != '-' && options->setup == NULL)
        options->setup = **word;
    else if ((**word)[0] != '-' && options->name == NULL)
        options->name = **word;
    else
        give_up(2, "error: unexpected argument '%s' found\n\n%s", **word, USAGE);
}

static void read_options(struct options *options, char **words) {
    for (char **word = words; *word != NULL; word++) {
        if (strcmp(*word, "--help") == 0 || strcmp(*word, "-h") == 0) {
            fputs(HELP, stdout);
            exit(0);
        }
        if (strcmp(*word, "--version") == 0) {
            puts("someip-node " SOMEIP_NODE_VERSION);
            exit(0);
        }
        read_word(options, &word);
    }
    if (options->name == NULL)
        give_up(2, "error: a setup and the name of a node are required%s\n\n%s", "", USAGE);
}

/* Signals end the loop by a pipe; a reader that goes away is told as `cannot write`. */
static void catch_signals(void) {
    struct sigaction stops = {.sa_handler = stop}, ignored = {.sa_handler = SIG_IGN};
    if (pipe(stopping) != 0 || fcntl(stopping[1], F_SETFL, O_NONBLOCK) != 0 || sigaction(SIGTERM, &stops, NULL) != 0
        || sigaction(SIGINT, &stops, NULL) != 0 || sigaction(SIGPIPE, &ignored, NULL) != 0)
        give_up(4, "someip-node: signals: %s%s\n", strerror(errno), "");
}

int main(int count, char **words) {
    static struct program program = {.node = SOMEIP_HANDLE_INIT, .has_input = true};
    (void)count;
    program.text = (struct text)TEXT_INIT(program.text);
    read_options(&program.options, words + 1);
    if (someip_version() != SOMEIP_VERSION)
        give_up(4, "someip-node: the library is not that of the header%s%s\n", "", "");
    program.line = malloc(LINE_MOST);
    program.payload = malloc(program.payload_size = 65536);
    if (program.line == NULL || program.payload == NULL)
        give_up(3, "%s%s\n", "out of memory", "");
    read_setup(&program);
    judge_setup(&program);
    catch_signals();
    start(&program);
    run(&program);
    stop_offers(&program);
    log_close(&program.log);
    tell_counts(program.wire.dropped_own, program.wire.dropped_zero, program.wire.dropped_group);
    someip_close(&program.node);
    wire_close(&program.wire);
    text_free(&program.text);
    free(program.setup);
    free(program.line);
    free(program.payload);
    if (program.cannot_write)
        give_up(4, "%s%s\n", "cannot write", "");
    return 0;
}
