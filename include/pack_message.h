/* The bytes of a message between concentrators. Turns write them and deliveries check them; a host may read them. */
#ifndef PACK_MESSAGE_H
#define PACK_MESSAGE_H

#include <stdint.h>

#ifdef __cplusplus
extern "C" {
#endif

/* The length of the longest message, and the bytes that a turn and a restore must be lent at least for one. */
#define PACK_MESSAGE_BYTES 140

/* The versions of a session, as opening takes them and byte 0 of the session's messages has them. */
enum pack_version {
    /* A decided vote goes on through its rounds. */
    PACK_VERSION_1 = 1,
    /* A decided vote sends FINISH, and then nothing. */
    PACK_VERSION_2 = 2
};

/* The kinds of message, byte 1. */
enum pack_kind {
    /* A concentrator's own pack. */
    PACK_KIND_SEND = 1,
    /* The value of the SEND that was got. */
    PACK_KIND_ECHO = 2,
    /* The value that enough ECHOs or READYs hold. */
    PACK_KIND_READY = 3,
    /* An estimate of a vote, in a round. */
    PACK_KIND_EST = 4,
    /* An accepted value of a vote, in a round. */
    PACK_KIND_AUX = 5,
    /* The set to be put in force. */
    PACK_KIND_COMMIT = 6,
    /* The value of a vote that is decided, or that enough FINISHes hold; in version 2 alone. */
    PACK_KIND_FINISH = 7
};

/* Where the fields of a message stand. Its length is PACK_HEADER_BYTES + PACK_VALUE_BYTES * count. */
enum pack_byte {
    /* The session's version. */
    PACK_BYTE_VERSION = 0,
    /* The kind. */
    PACK_BYTE_KIND = 1,
    /* The sender, 1 to n. */
    PACK_BYTE_SENDER = 2,
    /* The instance of a broadcast or vote, 1 to n; 0 in COMMIT. */
    PACK_BYTE_INSTANCE = 3,
    /* The round, 1 to PACK_ROUNDS in EST and AUX, else 0. */
    PACK_BYTE_ROUND = 4,
    /* The count of values: 1 to n in COMMIT, else 1. */
    PACK_BYTE_COUNT = 5,
    /* Two bytes of 0. */
    PACK_BYTE_RESERVED = 6,
    /* The session number, four bytes, high byte first. */
    PACK_BYTE_SESSION = 8
};

/* Bytes of a message before its values. */
#define PACK_HEADER_BYTES 12
/* Bytes of each value, high byte first. */
#define PACK_VALUE_BYTES 8

/* The fields of a message that a turn sent or a delivery accepted. */

/* Its kind. */
static inline enum pack_kind pack_message_kind(const uint8_t *message) { return (enum pack_kind)message[PACK_BYTE_KIND]; }

/* Its sender. */
static inline uint8_t pack_message_sender(const uint8_t *message) { return message[PACK_BYTE_SENDER]; }

/* Its instance; of an EST, AUX or FINISH the vote. */
static inline uint8_t pack_message_instance(const uint8_t *message) { return message[PACK_BYTE_INSTANCE]; }

/* Its round. */
static inline uint8_t pack_message_round(const uint8_t *message) { return message[PACK_BYTE_ROUND]; }

/* How many values it has. */
static inline uint8_t pack_message_count(const uint8_t *message) { return message[PACK_BYTE_COUNT]; }

#ifdef __cplusplus
}
#endif

#endif
