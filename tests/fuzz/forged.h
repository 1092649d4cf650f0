/* A message of the session that nobody sent, with a head and values from the input. */
#ifndef FORGED_H
#define FORGED_H

#include <string.h>

#include "input.h"
#include "opening.h"
#include "pack_agreement.h"

/* Builds one in PACK_MESSAGE_BYTES bytes and gives its length. */
static inline size_t forge_message(struct input *in, uint8_t *message, const struct opening *opening)
{
    uint8_t drawn = take(in), place = take(in), kind = drawn & 7, sender = 1 + (place & 15);
    uint8_t count = kind == PACK_KIND_COMMIT ? 1 + (drawn >> 3) % PACK_CONCENTRATORS : 1;
    memset(message, 0, PACK_MESSAGE_BYTES);
    message[PACK_BYTE_VERSION] = (uint8_t)opening->version;
    message[PACK_BYTE_KIND] = kind;
    message[PACK_BYTE_SENDER] = sender;
    message[PACK_BYTE_INSTANCE] = kind == PACK_KIND_SEND ? sender : kind == PACK_KIND_COMMIT ? 0 : 1 + (place >> 4);
    message[PACK_BYTE_ROUND] = kind == PACK_KIND_EST || kind == PACK_KIND_AUX ? 1 + (drawn >> 3) : 0;
    message[PACK_BYTE_COUNT] = count;
    message[PACK_BYTE_SESSION + 3] = (uint8_t)opening->session;
    for (uint8_t k = 0; k < count; k++)
        message[PACK_HEADER_BYTES + PACK_VALUE_BYTES * k + PACK_VALUE_BYTES - 1] = take(in);
    return PACK_HEADER_BYTES + PACK_VALUE_BYTES * (size_t)count;
}

#endif
