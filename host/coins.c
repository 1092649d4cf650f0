#include "coins.h"

#include <stdlib.h>

uint64_t coins_note_sent(struct coins *c, const uint8_t *message)
{
    uint64_t vote = pack_message_instance(message), round = pack_message_round(message);
    if (pack_message_kind(message) != PACK_KIND_EST || round <= c->round[vote - 1])
        return 0;
    c->round[vote - 1] = round;
    c->recorded[vote - 1] = false;
    return vote;
}

void coins_note_line(struct coins *c, const uint8_t *line)
{
    char *end;
    if (line[0] != 'K')
        return;
    /* The line was applied, so its numbers are good; the second one ends at a tab. */
    uint64_t vote = strtoull((const char *)line + 2, &end, 10);
    uint64_t round = strtoull(end + 1, NULL, 10);
    if (round == c->round[vote - 1])
        c->recorded[vote - 1] = true;
}

uint64_t coins_waiting(const struct coins *c, uint64_t vote)
{
    for (; vote <= PACK_CONCENTRATORS; vote++)
        if (c->round[vote - 1] != 0 && !c->recorded[vote - 1])
            return vote;
    return 0;
}

uint64_t coins_round(const struct coins *c, uint64_t vote) { return c->round[vote - 1]; }
