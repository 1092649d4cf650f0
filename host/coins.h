/*
 * What a concentrator knows of its votes in a boxed session: the round of each, and whether that round's coin is recorded.
 * It learns both from the messages that its turns sent and from the lines of its recordings, after a restart again.
 */
#ifndef HOST_COINS_H
#define HOST_COINS_H

#include <stdbool.h>
#include <stddef.h>
#include <stdint.h>

#include "pack_agreement.h"

struct coins {
    /* Of vote v at place v - 1; 0 before its start. */
    uint64_t round[PACK_CONCENTRATORS];
    bool recorded[PACK_CONCENTRATORS];
};

/*
 * A message that the concentrator's own turn sent: an EST of a higher round than before enters that round. Gives the vote
 * that did so, or 0.
 */
uint64_t coins_note_sent(struct coins *c, const uint8_t *message);

/* A complete line of the journal: that of a recording has the vote and the round. */
void coins_note_line(struct coins *c, const uint8_t *line);

/* The first vote from `vote` on that waits for its coin; 0 where none does. */
uint64_t coins_waiting(const struct coins *c, uint64_t vote);

/* The round of a vote. */
uint64_t coins_round(const struct coins *c, uint64_t vote);

#endif
