/*
 * The costliest session of n concentrators in version 1, for sizing batteries: the settings and calls with which one
 * concentrator takes 99 * n + 3 turns, and 5 where n is 1, all weights being 1 and the coins printed. No calls bring more
 * turns in such a session, nor more than 98 * n + 2 messages and 1968 * n + 32 bytes sent. These functions only hand the
 * session out; they are not part of the engine and stand in an archive of their own.
 */
#ifndef PACK_COSTLIEST_H
#define PACK_COSTLIEST_H

#include <stddef.h>
#include <stdint.h>

#include "pack_agreement.h"

#ifdef __cplusplus
extern "C" {
#endif

/*
 * What a call of the session is. The low byte of each is what bits 8 to 15 of the answer hold; 512 is added to all, so that
 * none passes for a refusal or an outcome.
 */
enum pack_costliest_kind {
    /* There is no such call. */
    PACK_COSTLIEST_NONE = 512,
    /* A delivery. */
    PACK_COSTLIEST_DELIVERY = 513,
    /* A turn. */
    PACK_COSTLIEST_TURN = 514
};

/*
 * Number k of the opening, from 1 on: n, ta, ts, own number, session, input, then the n coin words; 0 past the end.
 * Its version is PACK_VERSION_1, its weights are all 1, and its coins are printed.
 */
PACK_MUST_USE
uint64_t pack_costliest_setting(uint64_t n, uint64_t k);

/*
 * Call k of the session after its opening, from 1 on, in the order in which the calls are made. The message of a
 * delivery stands at the front of the lent bytes; the others keep their value.
 * Answer: bits 8 to 15 what it is, bits 16 to 31 the length of the message delivered or the bytes lent to the turn,
 * bits 32 to 39 the link of a delivery, the others 0.
 * Refusals, in this order: PACK_REFUSED_SETTINGS (n is not 1 to 16), PACK_REFUSED_SHORT (under PACK_MESSAGE_BYTES).
 */
PACK_MUST_USE
pack_answer pack_costliest_call(uint64_t n, uint64_t k, uint8_t *message, size_t capacity);

/* The parts of an answer. */

/* What the call is. */
static inline enum pack_costliest_kind pack_costliest_kind_of(pack_answer call)
{
    return (enum pack_costliest_kind)(PACK_COSTLIEST_NONE + (call.number >> 8 & 0xff));
}

/* The length of the message delivered, or the bytes lent to the turn. */
static inline size_t pack_costliest_length_of(pack_answer call) { return (size_t)(call.number >> 16 & 0xffff); }

/* The link of a delivery. */
static inline uint64_t pack_costliest_link_of(pack_answer call) { return call.number >> 32 & 0xff; }

#ifdef __cplusplus
}
#endif

#endif
