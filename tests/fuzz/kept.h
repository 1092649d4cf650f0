/* The journal of a state as its calls write it, and the check that it gives the state back. */
#ifndef KEPT_H
#define KEPT_H

#include "lent.h"
#include "pack_agreement.h"

#define KEPT_BYTES (1u << 17)

struct kept {
    uint8_t bytes[KEPT_BYTES];
    size_t length;
    /* All that was done to the state since its opening stands there. */
    bool whole;
    /* The message that the last line sent, and its length, or 0. */
    uint8_t message[PACK_MESSAGE_BYTES];
    size_t sent;
};

/* Adds the line of a call that was accepted; that of an opening starts the journal. */
static inline void keep(struct kept *kept, const uint8_t *line, size_t length, const uint8_t *message, size_t sent)
{
    require(length >= PACK_TURN_LINE && length <= PACK_LINE_BYTES && line[length - 1] == '\n', "the form of a line");
    require(memchr(line, '\n', length - 1) == NULL, "two lines for one call");
    if (line[0] == 'O') {
        kept->length = 0;
        kept->whole = true;
    }
    if (length > KEPT_BYTES - kept->length) {
        kept->whole = false;
        return;
    }
    memcpy(kept->bytes + kept->length, line, length);
    kept->length += length;
    kept->sent = sent;
    if (sent != 0)
        memcpy(kept->message, message, sent);
}

/* The journal, with a torn line behind it, gives these words back, and the last line's message. */
static inline void check_kept(const struct kept *kept, const uint64_t *words)
{
    static const char torn[] = "D\t1\t0102";
    static uint8_t journal[KEPT_BYTES + sizeof torn];
    static uint64_t restored[PACK_STATE_WORDS];
    uint8_t message[PACK_MESSAGE_BYTES];
    if (!kept->whole)
        return;
    memcpy(journal, kept->bytes, kept->length);
    memcpy(journal + kept->length, torn, sizeof torn);
    memset(restored, 0xc3, sizeof restored);
    memset(message, 0xa5, sizeof message);
    pack_answer answer =
        pack_restore(restored, PACK_STATE_WORDS, journal, kept->length + sizeof torn, message, sizeof message);
    uint64_t expected = (uint64_t)kept->length << 32 | (uint64_t)kept->sent << 16 | (uint64_t)(kept->sent != 0) << 8;
    require(answer.number == expected, "the answer to a whole journal");
    require(memcmp(restored, words, sizeof restored) == 0, "a journal gives other words back");
    require(memcmp(message, kept->message, kept->sent) == 0, "a journal gives another message back");
    for (size_t k = kept->sent; k < sizeof message; k++)
        require(message[k] == 0xa5, "a restore wrote other bytes");
}

#endif
