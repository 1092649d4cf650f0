/* The settings of an opening, taken from the input. */
#ifndef OPENING_H
#define OPENING_H

#include <stdbool.h>
#include <string.h>

#include "input.h"
#include "pack_agreement.h"

struct opening {
    uint64_t version, n, ta, ts, input;
    uint32_t session, coins[PACK_CONCENTRATORS + 1];
    size_t coin_words;
    uint8_t weights[PACK_CONCENTRATORS + 1];
    size_t weight_count;
    uint64_t boxed;
};

/* n weights, or another number of them; each mostly 1 to 4. */
static inline void take_weights(struct input *in, struct opening *opening)
{
    static const uint8_t outside[4] = {0, PACK_WEIGHT_MAX + 1, 9, 255};
    uint8_t count = take(in);
    bool as_many = count < 0xf0 && opening->n <= PACK_CONCENTRATORS;
    opening->weight_count = as_many ? opening->n : count % (PACK_CONCENTRATORS + 2);
    for (size_t i = 0; i < opening->weight_count; i++) {
        uint8_t weight = take(in);
        opening->weights[i] = weight < 0xf0 ? 1 + weight % PACK_WEIGHT_MAX : outside[weight & 3];
    }
}

static inline struct opening take_opening(struct input *in)
{
    struct opening opening;
    memset(&opening, 0, sizeof opening);
    opening.n = take_number(in);
    opening.ta = take_number(in);
    opening.ts = take_number(in);
    opening.session = take(in);
    opening.input = take(in);
    uint8_t coins = take(in);
    opening.coin_words = coins < 0xf0 && opening.n <= PACK_CONCENTRATORS ? opening.n : coins % (PACK_CONCENTRATORS + 2);
    for (size_t i = 0; i < opening.coin_words; i++)
        opening.coins[i] = coins & 1 ? UINT32_MAX : coins & 2 ? 0x55555555u << (i & 1) : coins * 2654435761u >> i;
    memset(opening.weights, 1, sizeof opening.weights);
    opening.weight_count = opening.n <= PACK_CONCENTRATORS ? opening.n : PACK_CONCENTRATORS + 1;
    if (coins & 4)
        take_weights(in, &opening);
    opening.version = PACK_VERSION_1;
    if (coins & 32) {
        /* Mostly one of the two. */
        uint8_t version = take(in);
        opening.version = version < 0xf0 ? PACK_VERSION_1 + (version & 1) : take_number(in);
    }
    if (coins & 8) {
        /* Mostly boxed, with the words that go with it. */
        uint8_t boxed = take(in);
        opening.boxed = boxed < 0xf0 ? boxed & 1 : take_number(in);
        if (boxed < 0xf8)
            memset(opening.coins, 0, sizeof opening.coins);
    }
    return opening;
}

#endif
