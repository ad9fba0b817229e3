/* Texts of the library, which grow as they need, and those that a log writes by itself. */
#ifndef TEXTS_H
#define TEXTS_H

#include "someip.h"

#include <stdbool.h>
#include <stddef.h>
#include <stdint.h>

/* The bytes that a function of the library writes, and how many there are. It is begun with TEXT_INIT. */
struct text {
    uint8_t *bytes;
    size_t size, length;
    uint8_t first[128];
};

#define TEXT_INIT(text) {.bytes = (text).first, .size = sizeof (text).first}

/* Whether the call that had this outcome is to be made again, since the text is larger now. */
bool text_grows(struct text *text, uint32_t outcome);

void text_free(struct text *text);

/* The most bytes of an endpoint as `A.B.C.D:PORT`, with the 0 at its end. */
enum { ENDPOINT_MOST = 32 };

void put_endpoint(char text[ENDPOINT_MOST], const someip_endpoint *endpoint);

/* Bytes in hex, or `-` for none. */
void put_hex(char *text, const uint8_t *bytes, size_t length);

#endif
