/* A session of one concentrator in C, from its opening to its set in force. */
#include <stdio.h>

#include "pack_agreement.h"

static uint64_t state[PACK_STATE_WORDS];
static uint8_t line[PACK_LINE_BYTES];
static uint8_t message[PACK_MESSAGE_BYTES];

/* Takes turns until one sends nothing, and delivers what they send. Whether all was accepted. */
static int run(void)
{
    for (;;) {
        pack_answer turn = pack_turn(state, PACK_STATE_WORDS, message, sizeof message, line, sizeof line);
        if (pack_refusal_of(turn) != PACK_ACCEPTED)
            return 0;
        if (pack_length_of(turn) == 0)
            return 1;
        pack_answer delivery =
            pack_deliver(state, PACK_STATE_WORDS, 1, message, pack_length_of(turn), line, sizeof line);
        if (pack_refusal_of(delivery) != PACK_ACCEPTED)
            return 0;
    }
}

int main(void)
{
    static const uint32_t coins[1] = {1};
    static const uint8_t weights[1] = {1};
    uint64_t named[16], in_force[16];
    pack_answer opening = pack_open(state, PACK_STATE_WORDS, PACK_VERSION_2, 1, 0, 0, 1, 7, 8, coins, 1, weights, 1,
                                    PACK_COINS_PRINTED, line, sizeof line);
    if (pack_refusal_of(opening) != PACK_ACCEPTED)
        return 1;
    if (!run())
        return 1;
    pack_answer report = pack_report(state, PACK_STATE_WORDS, named, 16, in_force, 16);
    if (pack_refusal_of(report) != PACK_ACCEPTED || pack_in_force_of(report) != 1)
        return 1;
    printf("in force %llu\n", (unsigned long long)in_force[0]);
    return 0;
}
