/* The coin box of a feeder: what every call on it owes. */
#ifndef BOX_H
#define BOX_H

#include "input.h"
#include "lent.h"
#include "pack_agreement.h"

#define BOX_BYTES (PACK_BOX_WORDS * sizeof(uint64_t))

static struct lent box_lent;

static inline uint64_t *box_words(void) { return (uint64_t *)(void *)lent_start(&box_lent); }

/* Opens the box over any words, with settings that may be refused. */
static inline void box_open(uint64_t n, uint64_t ta, uint64_t ts, const uint8_t *weights, size_t count)
{
    static const uint32_t coins[PACK_CONCENTRATORS + 2] = {0x55555555, 0xaaaaaaaa, 0xffff0000, 0x0000ffff, 1, 0x80000000};
    size_t coin_words = n <= PACK_CONCENTRATORS + 1 ? (size_t)n : 0;
    uint64_t *words = lend_filled(&box_lent, BOX_BYTES, 0x3c);
    require(pack_box_open(words + 1, PACK_BOX_WORDS - 1, n, ta, ts, coins, coin_words, weights, count).number ==
                PACK_REFUSED_NO_STATE,
            "a box a word short is opened");
    uint64_t answer = pack_box_open(words, PACK_BOX_WORDS, n, ta, ts, coins, coin_words, weights, count).number;
    require(answer == PACK_ACCEPTED || answer == PACK_REFUSED_SETTINGS, "the answer of a box's opening");
    require(lent_kept(&box_lent, answer == PACK_ACCEPTED ? BOX_BYTES : 0), "a refused opening changed the box");
}

/* A request changes a mark at most, and a second one is told no less. */
static inline pack_answer box_request(uint64_t requester, uint64_t vote, uint64_t round)
{
    uint64_t *words = lend(&box_lent, BOX_BYTES);
    pack_answer answer = pack_box_request(words, PACK_BOX_WORDS, requester, vote, round);
    enum pack_refusal refusal = pack_refusal_of(answer);
    require(refusal == PACK_ACCEPTED || answer.number == PACK_REFUSED_COIN, "the refusal of a request");
    require(lent_kept(&box_lent, refusal == PACK_ACCEPTED ? BOX_BYTES : 0), "a refused request changed the box");
    if (refusal == PACK_ACCEPTED) {
        require(answer.number >> 24 == 0 && pack_bit_of(answer) <= 1, "the answer to a request");
        require(pack_told_of(answer) ? (answer.number >> 8 & 0xff) == 1 : answer.number == 0, "sealed, and a bit");
        require(requester >= 1 && requester <= words[0] && vote >= 1 && vote <= words[0], "a number above n is taken");
        require(round >= 1 && round <= PACK_ROUNDS, "a round outside the layout is taken");
        lend(&box_lent, BOX_BYTES);
        require(pack_box_request(words, PACK_BOX_WORDS, requester, vote, round).number == answer.number,
                "a repeat is answered otherwise");
        require(lent_kept(&box_lent, 0), "a repeat changed the box");
    }
    return answer;
}

static inline void box_request_any(struct input *in)
{
    uint64_t requester = take_number(in), vote = take_number(in), round = take_number(in);
    box_request(requester, vote, round);
}

/* Any word of the box. */
static inline void box_plant(struct input *in)
{
    size_t at = take(in);
    if (at >= 64)
        at = (at << 8 | take(in)) % PACK_BOX_WORDS;
    box_words()[at] = take(in) & 1 ? take_word(in) : take_number(in);
}

#endif
