/* The calls as C makes them: refusals, null buffers, and what a call leaves alone. */
#include <string.h>

#include "expect.h"
#include "pack_agreement.h"

static uint64_t state[PACK_STATE_WORDS];
static const uint32_t coins[PACK_CONCENTRATORS] = {1, 1, 1, 1};
static const uint8_t weights[PACK_CONCENTRATORS] = {1, 1, 1, 1, 1};
static uint8_t line[PACK_LINE_BYTES];
static const char opening_line[] =
    "O\t1\t4\t1\t1\t1\t7\t0000000000000005\t00000001\t00000001\t00000001\t00000001\t1\t1\t1\t1\t0\n";

/* The refusal of an opening of one of four, in session 7 with input 5 and weights of 1. */
static uint64_t open_four(size_t words, uint64_t ta, uint64_t ts, uint64_t own)
{
    return pack_open(words == 0 ? NULL : state, words, PACK_VERSION_1, 4, ta, ts, own, 7, 5, coins, 4, weights, 4,
                     PACK_COINS_PRINTED, line, sizeof line)
               .number &
           0xff;
}

/* The same of concentrator 1 with other weights. */
static uint64_t open_weighted(uint64_t ta, uint64_t ts, const uint8_t *list, size_t count)
{
    return pack_open(state, PACK_STATE_WORDS, PACK_VERSION_1, 4, ta, ts, 1, 7, 5, coins, 4, list, count,
                     PACK_COINS_PRINTED, line, sizeof line)
               .number &
           0xff;
}

static void open_first(void)
{
    memset(state, 0xa5, sizeof state);
    expect(open_four(PACK_STATE_WORDS, 1, 1, 1) == PACK_ACCEPTED, "opening is accepted");
}

static void test_opening(void)
{
    uint64_t old[PACK_STATE_WORDS];
    memset(state, 0xa5, sizeof state);
    memcpy(old, state, sizeof old);
    expect(open_four(0, 1, 1, 1) == PACK_REFUSED_NO_STATE, "opening, no words");
    expect(open_four(PACK_STATE_WORDS - 1, 1, 1, 1) == PACK_REFUSED_NO_STATE, "opening, a word short");
    expect(pack_open(state, PACK_STATE_WORDS, 1, 4, 1, 1, 1, 7, 5, NULL, 0, weights, 4, 0, NULL, 0).number ==
               PACK_REFUSED_SETTINGS,
           "opening, no coins before no line");
    expect(open_four(PACK_STATE_WORDS, 1, 1, 5) == PACK_REFUSED_SETTINGS, "opening, own above n");
    expect(open_four(PACK_STATE_WORDS, 1, UINT64_MAX, 1) == PACK_REFUSED_SETTINGS, "opening, huge ts");
    expect(pack_open(state, PACK_STATE_WORDS, 1, 4, 1, 1, 1, 7, 5, coins, 4, weights, 4, 0, line, 511).number ==
               PACK_REFUSED_SHORT,
           "opening, 511 bytes for the line");
    expect(memcmp(old, state, sizeof old) == 0, "a refused opening leaves the state");
}

static void test_opening_line(void)
{
    uint8_t old[PACK_LINE_BYTES];
    size_t length = sizeof opening_line - 1;
    memset(line, 0xa5, sizeof line);
    memcpy(old, line, sizeof old);
    expect(pack_open(state, PACK_STATE_WORDS, 1, 4, 1, 1, 1, 7, 5, coins, 4, weights, 4, 0, line, sizeof line).number ==
               length << 16,
           "the answer of an opening");
    expect(memcmp(line, opening_line, length) == 0, "the line of an opening");
    expect(memcmp(old + length, line + length, sizeof old - length) == 0, "an opening writes no other bytes");
}

static void test_unnamed_ta(void)
{
    static const uint8_t mixed[4] = {4, 3, 2, 1};
    uint64_t old[PACK_STATE_WORDS];
    expect(open_four(PACK_STATE_WORDS, 1, 1, 4) == PACK_ACCEPTED, "opening, ta named");
    memcpy(old, state, sizeof old);
    expect(open_four(PACK_STATE_WORDS, PACK_UNNAMED, 2, 4) == PACK_REFUSED_SETTINGS,
           "opening, ta unnamed, 2 * ts is n");
    expect(open_four(PACK_STATE_WORDS, PACK_UNNAMED, UINT64_MAX / 2 + 1, 4) == PACK_REFUSED_SETTINGS,
           "opening, ta unnamed, huge ts");
    expect(memcmp(old, state, sizeof old) == 0, "an opening refused with ta unnamed leaves the state");
    expect(open_four(PACK_STATE_WORDS, PACK_UNNAMED, 1, 4) == PACK_ACCEPTED, "opening, ta unnamed");
    expect(memcmp(old, state, sizeof old) == 0, "ta unnamed is ts");
    expect(open_weighted(1, 4, mixed, 4) == PACK_ACCEPTED, "opening, ta named, weights");
    memcpy(old, state, sizeof old);
    expect(open_weighted(PACK_UNNAMED, 4, mixed, 4) == PACK_ACCEPTED, "opening, ta unnamed, weights");
    expect(memcmp(old, state, sizeof old) == 0, "ta unnamed is W - 1 - 2 * ts");
}

static void test_weights(void)
{
    static const uint8_t none[4] = {1, 0, 1, 1}, five[4] = {1, 1, 1, 5}, most[4] = {4, 4, 4, 4}, mixed[4] = {4, 3, 2, 1};
    uint64_t old[PACK_STATE_WORDS];
    memset(state, 0xa5, sizeof state);
    memcpy(old, state, sizeof old);
    expect(open_weighted(0, 0, NULL, 0) == PACK_REFUSED_SETTINGS, "opening, no weights");
    expect(open_weighted(0, 0, weights, 3) == PACK_REFUSED_SETTINGS, "opening, a weight short");
    expect(open_weighted(0, 0, weights, 5) == PACK_REFUSED_SETTINGS, "opening, a weight more");
    expect(open_weighted(0, 0, none, 4) == PACK_REFUSED_SETTINGS, "opening, weight 0");
    expect(open_weighted(0, 0, five, 4) == PACK_REFUSED_SETTINGS, "opening, weight 5");
    expect(open_weighted(2, 4, mixed, 4) == PACK_REFUSED_SETTINGS, "opening, 2 * ts + ta is the sum of the weights");
    expect(open_weighted(5, 5, weights, 4) == PACK_REFUSED_SETTINGS, "opening, ta and ts above n with weights of 1");
    expect(memcmp(old, state, sizeof old) == 0, "an opening refused by its weights leaves the state");
    expect(open_weighted(1, 4, mixed, 4) == PACK_ACCEPTED, "opening, 2 * ts + ta is one less");
    expect(open_weighted(5, 5, most, 4) == PACK_ACCEPTED, "opening, ta and ts above n");
}

static pack_answer take_turn(uint8_t *bytes)
{
    return pack_turn(state, PACK_STATE_WORDS, bytes, PACK_MESSAGE_BYTES, line, sizeof line);
}

static void test_turn(void)
{
    static const uint8_t send[20] = {1, 1, 1, 1, 0, 1, 0, 0, 0, 0, 0, 7, 0, 0, 0, 0, 0, 0, 0, 5};
    uint8_t bytes[PACK_MESSAGE_BYTES], old[PACK_MESSAGE_BYTES];
    memset(bytes, 0xa5, sizeof bytes);
    memcpy(old, bytes, sizeof old);
    open_first();
    memset(line, 0xa5, sizeof line);
    expect(pack_turn(state, PACK_STATE_WORDS, NULL, 0, line, sizeof line).number == PACK_REFUSED_SHORT,
           "turn, no bytes");
    expect(pack_turn(state, PACK_STATE_WORDS, bytes, 139, line, sizeof line).number == PACK_REFUSED_SHORT,
           "turn, a byte short");
    expect(pack_turn(state, PACK_STATE_WORDS, bytes, sizeof bytes, line, 511).number == PACK_REFUSED_SHORT,
           "turn, 511 bytes for the line");
    expect(pack_turn(state, PACK_STATE_WORDS, bytes, sizeof bytes, NULL, 0).number == PACK_REFUSED_SHORT,
           "turn, no line");
    expect(pack_turn(NULL, 0, bytes, 139, NULL, 0).number == PACK_REFUSED_NO_STATE, "turn, no state before short");
    expect(memcmp(old, bytes, sizeof old) == 0 && line[0] == 0xa5, "a refused turn leaves the bytes");
    expect(take_turn(bytes).number == (20u << 16 | 1 << 8), "the first turn sends");
    expect(memcmp(send, bytes, sizeof send) == 0, "the SEND's bytes");
    expect(memcmp(old + 20, bytes + 20, sizeof old - 20) == 0, "a turn writes no other bytes");
    expect(memcmp(line, "T\n\xa5", 3) == 0, "the line of a turn");
    memset(line, 0xa5, sizeof line);
    expect(take_turn(bytes).number == 0, "the second turn is idle");
    expect(line[0] == 0xa5, "an idle turn writes no line");
    expect(pack_turn(state, PACK_STATE_WORDS, bytes, sizeof bytes, line, 511).number == PACK_REFUSED_SHORT,
           "an idle turn, 511 bytes");
}

/* What a delivery of a 20-byte SEND of concentrator 2 answers with one byte changed. */
static uint64_t deliver_changed(size_t at, uint8_t value, uint64_t link, size_t length)
{
    uint8_t bytes[20] = {1, 1, 2, 2, 0, 1, 0, 0, 0, 0, 0, 7, 0, 0, 0, 0, 0, 0, 0, 6};
    bytes[at] = value;
    return pack_deliver(state, PACK_STATE_WORDS, link, bytes, length, line, sizeof line).number;
}

static void test_delivery(void)
{
    open_first();
    static const uint8_t echo[20] = {1, 2, 2, 1, 0, 1, 0, 0, 0, 0, 0, 7, 0, 0, 0, 0, 0, 0, 0, 0xfe};
    static const char delivery_line[] = "D\t2\t0101020200010000000000070000000000000006\n";
    expect(pack_deliver(NULL, 0, 2, NULL, 0, NULL, 0).number == PACK_REFUSED_NO_STATE, "delivery, no state");
    expect(pack_deliver(state, PACK_STATE_WORDS, 2, NULL, 0, NULL, 0).number == PACK_REFUSED_LENGTH,
           "delivery, no bytes");
    expect(pack_deliver(state, PACK_STATE_WORDS, 2, echo, 20, line, 511).number == PACK_REFUSED_SHORT,
           "delivery, 511 bytes for the line");
    expect(deliver_changed(0, 1, 2, 19) == PACK_REFUSED_LENGTH, "delivery, a byte short");
    expect(deliver_changed(1, 8, 2, 20) == PACK_REFUSED_KIND, "delivery, kind 8");
    expect(deliver_changed(11, 8, 2, 20) == PACK_REFUSED_SESSION, "delivery, session 8");
    expect(deliver_changed(0, 1, 258, 20) == PACK_REFUSED_SENDER, "delivery, link 258");
    expect(deliver_changed(3, 3, 2, 20) == PACK_REFUSED_FIELD, "delivery, another instance");
    memset(line, 0xa5, sizeof line);
    expect(deliver_changed(0, 1, 2, 20) == (sizeof delivery_line - 1) << 16, "delivery is accepted");
    expect(memcmp(line, delivery_line, sizeof delivery_line - 1) == 0, "the line of a delivery");
    expect(line[sizeof delivery_line - 1] == 0xa5, "a delivery writes no other bytes");
    expect(deliver_changed(0, 1, 2, 20) == PACK_REFUSED_HELD, "delivery, held");
}

/* What a restore from this text answers. */
static uint64_t restore(const char *journal, uint8_t *bytes)
{
    return pack_restore(state, PACK_STATE_WORDS, (const uint8_t *)journal, strlen(journal), bytes, PACK_MESSAGE_BYTES)
        .number;
}

static void test_restore(void)
{
    static const char torn[] = "O\t1\t4\t1\t1\t1\t7\t0000000000000005\t00000001\t00000001\t00000001\t00000001\nT\nD\t2\t01";
    const uint64_t complete = sizeof torn - 1 - 6;
    uint64_t opened[PACK_STATE_WORDS], old[PACK_STATE_WORDS];
    uint8_t bytes[PACK_MESSAGE_BYTES], sent[PACK_MESSAGE_BYTES], untouched[PACK_MESSAGE_BYTES];
    memset(bytes, 0xa5, sizeof bytes);
    memcpy(untouched, bytes, sizeof bytes);
    memcpy(sent, bytes, sizeof bytes);
    open_first();
    memcpy(opened, state, sizeof opened);
    memset(state, 0xc3, sizeof state);
    memcpy(old, state, sizeof old);
    expect(pack_restore(NULL, 0, NULL, 0, NULL, 0).number == PACK_REFUSED_NO_STATE, "restore, no state");
    expect(pack_restore(state, PACK_STATE_WORDS, NULL, 0, bytes, 139).number == PACK_REFUSED_SHORT,
           "restore, short before the journal");
    expect(pack_restore(state, PACK_STATE_WORDS, NULL, 0, bytes, 140).number == (1 << 8 | PACK_REFUSED_JOURNAL),
           "restore, no journal");
    expect(restore("T\n", bytes) == (1 << 8 | PACK_REFUSED_JOURNAL), "restore, no opening line");
    expect(restore("O\t1\t1\t0\t0\t1\t7\t0000000000000005\t00000000\nT\nT\n", bytes) == (3 << 8 | PACK_REFUSED_JOURNAL),
           "restore, an idle turn");
    expect(memcmp(old, state, sizeof old) == 0, "a refused restore leaves the state");
    expect(memcmp(untouched, bytes, sizeof bytes) == 0, "a refused restore leaves the bytes");
    expect(restore(opening_line, bytes) == (uint64_t)(sizeof opening_line - 1) << 32, "the answer of a restore");
    expect(memcmp(opened, state, sizeof opened) == 0, "the state of an opening, restored");
    expect(memcmp(untouched, bytes, sizeof bytes) == 0, "a restore without a message leaves the bytes");
    expect(pack_outcome_of(take_turn(sent)) == PACK_OUTCOME_SENT, "a turn after the restore");
    memcpy(opened, state, sizeof opened);
    memset(state, 0xc3, sizeof state);
    expect(restore(torn, bytes) == (complete << 32 | 20u << 16 | 1 << 8), "the answer of a restore with a message");
    expect(memcmp(opened, state, sizeof opened) == 0, "the state of a turn, restored");
    expect(memcmp(sent, bytes, sizeof bytes) == 0, "the message again, and no other bytes");
}

/* The refusal of an opening of four with these coins. */
static uint64_t open_with_coins(const uint32_t *words, uint64_t boxed)
{
    return pack_open(state, PACK_STATE_WORDS, PACK_VERSION_1, 4, 1, 1, 1, 7, 5, words, 4, weights, 4, boxed, line,
                     sizeof line)
               .number &
           0xff;
}

static uint64_t record(uint64_t vote, uint64_t round, uint64_t bit)
{
    return pack_record(state, PACK_STATE_WORDS, vote, round, bit, line, sizeof line).number;
}

static void test_recording(void)
{
    static const uint32_t none[4] = {0}, last[4] = {0, 0, 0, 1};
    static const char coin_line[] = "K\t4\t32\t1\n";
    uint64_t old[PACK_STATE_WORDS];
    expect(open_with_coins(none, 2) == PACK_REFUSED_SETTINGS, "opening, neither printed nor boxed");
    expect(open_with_coins(none, (uint64_t)1 << 32) == PACK_REFUSED_SETTINGS, "opening, a flag that would wrap");
    expect(open_with_coins(last, PACK_COINS_BOXED) == PACK_REFUSED_SETTINGS, "opening, boxed with a coin");
    expect(open_with_coins(none, PACK_COINS_PRINTED) == PACK_ACCEPTED && record(1, 1, 0) == PACK_REFUSED_COIN,
           "recording, printed");
    expect(open_with_coins(none, PACK_COINS_BOXED) == PACK_ACCEPTED, "opening, boxed");
    memcpy(old, state, sizeof old);
    memset(line, 0xa5, sizeof line);
    expect(pack_record(NULL, 0, 1, 1, 0, NULL, 0).number == PACK_REFUSED_NO_STATE, "recording, no state");
    expect(record(0, 1, 0) == PACK_REFUSED_COIN && record(5, 1, 0) == PACK_REFUSED_COIN, "recording, vote");
    expect(record(1, 0, 0) == PACK_REFUSED_COIN && record(1, 33, 0) == PACK_REFUSED_COIN, "recording, round");
    expect(record(1, 1, 2) == PACK_REFUSED_COIN && record(257, 1, 0) == PACK_REFUSED_COIN,
           "recording, bit, and a vote that would wrap");
    expect(pack_record(state, PACK_STATE_WORDS, 5, 1, 0, NULL, 0).number == PACK_REFUSED_COIN,
           "recording, vote before short");
    expect(pack_record(state, PACK_STATE_WORDS, 4, 32, 1, line, 511).number == PACK_REFUSED_SHORT,
           "recording, 511 bytes for the line");
    expect(memcmp(old, state, sizeof old) == 0 && line[0] == 0xa5, "a refused recording leaves everything");
    expect(record(4, 32, 1) == (sizeof coin_line - 1) << 16, "recording is accepted");
    expect(memcmp(line, coin_line, sizeof coin_line - 1) == 0 && line[sizeof coin_line - 1] == 0xa5, "its line alone");
    expect(record(4, 32, 0) == PACK_REFUSED_COIN, "recording, against the one there");
    expect(record(4, 32, 1) == (sizeof coin_line - 1) << 16, "recording, a repeat");
}

static void test_box(void)
{
    static uint64_t box[PACK_BOX_WORDS], old[PACK_BOX_WORDS];
    static const uint8_t heavy[4] = {1, 2, 1, 1};
    memset(box, 0xa5, sizeof box);
    memcpy(old, box, sizeof old);
    expect(pack_box_open(NULL, 0, 0, 0, 0, NULL, 0, NULL, 0).number == PACK_REFUSED_NO_STATE,
           "box, no words before settings");
    expect(pack_box_open(box, PACK_BOX_WORDS - 1, 4, 1, 1, coins, 4, weights, 4).number == PACK_REFUSED_NO_STATE,
           "box, a word short");
    expect(pack_box_open(box, PACK_BOX_WORDS, 3, 1, 1, coins, 3, weights, 3).number == PACK_REFUSED_SETTINGS,
           "box, settings");
    expect(pack_box_open(box, PACK_BOX_WORDS, 4, 1, 1, NULL, 0, weights, 4).number == PACK_REFUSED_SETTINGS,
           "box, no coins");
    expect(pack_box_request(box, PACK_BOX_WORDS, 1, 1, 1).number == PACK_REFUSED_COIN, "request to what is no box");
    expect(pack_box_request(NULL, 0, 1, 1, 1).number == PACK_REFUSED_COIN, "request to nothing");
    expect(memcmp(old, box, sizeof old) == 0, "refused calls leave the box");
    expect(pack_box_open(box, PACK_BOX_WORDS, 4, PACK_UNNAMED, 1, coins, 4, heavy, 4).number == 0, "box, opened");
    memcpy(old, box, sizeof old);
    expect(pack_box_request(box, PACK_BOX_WORDS, 0, 1, 1).number == PACK_REFUSED_COIN, "request of nobody");
    expect(pack_box_request(box, PACK_BOX_WORDS, 5, 1, 1).number == PACK_REFUSED_COIN, "request of 5 of 4");
    expect(pack_box_request(box, PACK_BOX_WORDS, 1, 5, 1).number == PACK_REFUSED_COIN, "request for vote 5");
    expect(pack_box_request(box, PACK_BOX_WORDS, 1, 1, PACK_ROUNDS + 1).number == PACK_REFUSED_COIN,
           "request for round 33");
    expect(memcmp(old, box, sizeof old) == 0, "refused requests leave the box");
    expect(pack_box_request(box, PACK_BOX_WORDS, 1, 4, 1).number == 0, "the first request is sealed");
    expect(pack_box_request(box, PACK_BOX_WORDS, 1, 4, 1).number == 0, "a repeat counts once");
    pack_answer told = pack_box_request(box, PACK_BOX_WORDS, 3, 4, 1);
    expect(told.number == (1u << 16 | 1u << 8) && pack_told_of(told) && pack_bit_of(told) == 1, "the second is told");
    expect(pack_box_request(box, PACK_BOX_WORDS, 1, 4, 1).number == told.number, "so is the first, later");
    told = pack_box_request(box, PACK_BOX_WORDS, 2, 4, 2);
    expect(told.number == 1u << 8 && pack_told_of(told) && pack_bit_of(told) == 0, "a heavy one alone is told");
}

/* One concentrator alone: five turns in either version, and the set {input} is in force. */
static void test_session(enum pack_version version)
{
    uint8_t bytes[PACK_MESSAGE_BYTES];
    pack_answer answer;
    uint64_t named[PACK_SET_WORDS], in_force[PACK_SET_WORDS + 1], untouched[PACK_SET_WORDS];
    memset(named, 0xa5, sizeof named);
    memset(in_force, 0xa5, sizeof in_force);
    memset(untouched, 0xa5, sizeof untouched);
    answer = pack_open(state, PACK_STATE_WORDS, version, 1, 0, 0, 1, 7, UINT64_MAX, coins, 1, weights, 1,
                       PACK_COINS_PRINTED, line, sizeof line);
    expect(pack_refusal_of(answer) == PACK_ACCEPTED, "opening alone");
    while (pack_refusal_of(answer = take_turn(bytes)) == PACK_ACCEPTED &&
           pack_outcome_of(answer) == PACK_OUTCOME_SENT) {
        size_t length = pack_length_of(answer);
        answer = pack_deliver(state, PACK_STATE_WORDS, 1, bytes, length, line, sizeof line);
        expect(pack_refusal_of(answer) == PACK_ACCEPTED, "own message");
    }
    expect(answer.number == 3 << 8, "the last turn is in force");
    expect(pack_turn(state, PACK_STATE_WORDS, bytes, 0, NULL, 0).number == PACK_REFUSED_CLOSED,
           "turn, closed before short");
    expect(deliver_changed(0, 1, 2, 20) == PACK_REFUSED_CLOSED, "delivery, closed");
    expect(pack_record(state, PACK_STATE_WORDS, 9, 9, 9, NULL, 0).number == PACK_REFUSED_CLOSED, "recording, closed");
    expect(pack_report(state, PACK_STATE_WORDS, named, 15, in_force, 16).number == PACK_REFUSED_SHORT,
           "report, a word short");
    expect(pack_report(state, PACK_STATE_WORDS, named, 16, NULL, 0).number == PACK_REFUSED_SHORT,
           "report, no words in force");
    expect(pack_report(NULL, 0, NULL, 0, NULL, 0).number == PACK_REFUSED_NO_STATE, "report, no state before short");
    answer = pack_report(state, PACK_STATE_WORDS, named, PACK_SET_WORDS, in_force, PACK_SET_WORDS + 1);
    expect(answer.number == ((uint64_t)5 << 32 | 1 << 24 | 1 << 16 | 1 << 8), "the report's answer");
    expect(named[0] == UINT64_MAX && in_force[0] == UINT64_MAX, "the report's sets");
    expect(memcmp(in_force + 1, untouched, sizeof untouched) == 0, "a report writes no other words in force");
    expect(memcmp(named + 1, untouched, sizeof named - sizeof named[0]) == 0, "a report names no other words");
}

int main(void)
{
    test_opening();
    test_opening_line();
    test_weights();
    test_unnamed_ta();
    test_turn();
    test_delivery();
    test_restore();
    test_recording();
    test_box();
    test_session(PACK_VERSION_1);
    test_session(PACK_VERSION_2);
    return failures == 0 ? 0 : 1;
}
