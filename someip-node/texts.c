#include "texts.h"

#include <stdio.h>
#include <stdlib.h>

bool text_grows(struct text *text, uint32_t outcome) {
    if (outcome != SOMEIP_BUFFER_TOO_SMALL)
        return false;
    uint8_t *larger = realloc(text->bytes == text->first ? NULL : text->bytes, text->length);
    if (larger == NULL)
        return false;
    text->bytes = larger;
    text->size = text->length;
    return true;
}

void text_free(struct text *text) {
    if (text->bytes != text->first)
        free(text->bytes);
}

void put_endpoint(char text[ENDPOINT_MOST], const someip_endpoint *endpoint) {
    const uint8_t *address = endpoint->address;
    snprintf(text, ENDPOINT_MOST, "%u.%u.%u.%u:%u", address[0], address[1], address[2], address[3], endpoint->port);
}

void put_hex(char *text, const uint8_t *bytes, size_t length) {
    static const char digits[] = "0123456789abcdef";
    if (length == 0)
        *text++ = '-';
    for (size_t i = 0; i < length; i++) {
        *text++ = digits[bytes[i] >> 4];
        *text++ = digits[bytes[i] & 15];
    }
    *text = 0;
}
