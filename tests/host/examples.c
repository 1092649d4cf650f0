/* The examples of docs/PROTOCOL.md, 1.13, 2.17 and 2.19, by calls, in both versions: byte 0 is the version. */
#include <string.h>

#include "expect.h"
#include "pack_agreement.h"

static uint64_t state[PACK_STATE_WORDS], version;
static uint8_t line[PACK_LINE_BYTES];
static uint8_t message[PACK_MESSAGE_BYTES];

/* Opens concentrator `own` of n with these weights all alike. */
static enum pack_refusal open_with(uint64_t n, uint64_t ta, uint64_t ts, uint8_t weight, uint64_t own, uint32_t session,
                                   uint64_t input)
{
    static const uint32_t coins[PACK_CONCENTRATORS];
    uint8_t weights[PACK_CONCENTRATORS];
    memset(weights, weight, sizeof weights);
    return pack_refusal_of(pack_open(state, PACK_STATE_WORDS, version, n, ta, ts, own, session, input, coins, n, weights,
                                     n, PACK_COINS_PRINTED, line, sizeof line));
}

/* 1.13: settings on the edge. */
static void test_settings(void)
{
    static const struct {
        uint64_t n, ta, ts;
        uint8_t weight;
        enum pack_refusal refusal;
    } rows[] = {
        {2, 0, 0, 1, PACK_ACCEPTED},          {10, 1, 4, 1, PACK_ACCEPTED},         {16, 5, 5, 1, PACK_ACCEPTED},
        {2, 0, 1, 1, PACK_REFUSED_SETTINGS},  {10, 2, 4, 1, PACK_REFUSED_SETTINGS}, {16, 4, 6, 1, PACK_REFUSED_SETTINGS},
        {5, 2, 1, 1, PACK_REFUSED_SETTINGS},  {16, 21, 21, 4, PACK_ACCEPTED},
    };
    for (size_t k = 0; k < sizeof rows / sizeof rows[0]; k++)
        expect(open_with(rows[k].n, rows[k].ta, rows[k].ts, rows[k].weight, 1, 9, 5) == rows[k].refusal, "1.13, a setting");
    /* An unnamed ta leaves the words that ta = 1 leaves. */
    static uint64_t named[PACK_STATE_WORDS];
    expect(open_with(10, 1, 4, 1, 1, 9, 5) == PACK_ACCEPTED, "1.13, ta named");
    memcpy(named, state, sizeof named);
    expect(open_with(10, PACK_UNNAMED, 4, 1, 1, 9, 5) == PACK_ACCEPTED, "1.13, ta unnamed");
    expect(memcmp(named, state, sizeof named) == 0, "1.13, an unnamed ta is 1");
}

/* A message of `length` bytes with these first bytes behind the version, in session 9, all others 0, over a link. */
static enum pack_refusal deliver(const uint8_t *first, size_t length, uint64_t link)
{
    uint8_t bytes[160] = {0};
    memcpy(bytes, first, 6);
    bytes[0] = (uint8_t)version;
    bytes[11] = 9;
    return pack_refusal_of(pack_deliver(state, PACK_STATE_WORDS, link, bytes, length, line, sizeof line));
}

/* 2.17: which check comes first. */
static void test_messages(void)
{
    expect(open_with(4, 1, 1, 1, 1, 9, 5) == PACK_ACCEPTED, "2.17, opening");
    expect(deliver((const uint8_t[]){1, 1, 3, 3, 0, 0}, 12, 3) == PACK_REFUSED_FIELD, "2.17, count 0");
    expect(deliver((const uint8_t[]){1, 1, 3, 3, 0, 2}, 28, 3) == PACK_REFUSED_FIELD, "2.17, a SEND of two in 28 bytes");
    expect(deliver((const uint8_t[]){1, 1, 3, 3, 0, 2}, 20, 3) == PACK_REFUSED_LENGTH, "2.17, a SEND of two in 20 bytes");
    expect(deliver((const uint8_t[]){1, 6, 3, 0, 0, 17}, 148, 3) == PACK_REFUSED_FIELD, "2.17, a COMMIT of 17");
    expect(deliver((const uint8_t[]){1, 1, 5, 5, 0, 1}, 20, 5) == PACK_REFUSED_SENDER, "2.17, sender 5 of 4");
    expect(deliver((const uint8_t[]){1, 1, 1, 1, 0, 1}, 20, 257) == PACK_REFUSED_SENDER, "2.17, link 257");
    expect(deliver((const uint8_t[]){1, 1, 3, 2, 0, 1}, 20, 3) == PACK_REFUSED_FIELD, "2.17, another's instance");
}

/* 2.19: the bytes of a SEND. */
static void test_bytes(void)
{
    const uint8_t sent[] = {(uint8_t)version, 1, 3, 3, 0, 1, 0, 0, 0, 0, 0, 9, 0, 0, 0, 0, 0, 0, 1, 2};
    expect(open_with(4, 1, 1, 1, 3, 9, 258) == PACK_ACCEPTED, "2.19, opening");
    pack_answer turn = pack_turn(state, PACK_STATE_WORDS, message, sizeof message, line, sizeof line);
    expect(pack_outcome_of(turn) == PACK_OUTCOME_SENT && pack_length_of(turn) == sizeof sent, "2.19, a message is sent");
    expect(memcmp(message, sent, sizeof sent) == 0, "2.19, its bytes");
}

int main(void)
{
    for (version = PACK_VERSION_1; version <= PACK_VERSION_2; version++) {
        test_settings();
        test_messages();
        test_bytes();
    }
    return failures != 0;
}
