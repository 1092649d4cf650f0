/* Both versions of a session by calls: openings, messages of the other version, FINISHes, and what number 9 reads. */
#include <string.h>

#include "expect.h"
#include "pack_agreement.h"

/* Words of a state: its turns, the rounds of votes from 1 on, the votes decided 0 and 1, its version. */
enum { TURNS = 6, ROUNDS = 23, DECIDED_ZERO = 138, DECIDED_ONE = 139, VERSION = 143 };

static uint64_t state[PACK_STATE_WORDS], old[PACK_STATE_WORDS];
static uint8_t line[PACK_LINE_BYTES], message[PACK_MESSAGE_BYTES];

/* Opens concentrator 1 of four, with ta = ts = 1, in session 7 with input 5. */
static uint64_t open_weighted(uint64_t version, const uint8_t *weights)
{
    static const uint32_t coins[4] = {1, 1, 1, 1};
    return pack_open(state, PACK_STATE_WORDS, version, 4, 1, 1, 1, 7, 5, coins, 4, weights, 4, PACK_COINS_PRINTED, line,
                     sizeof line)
        .number;
}

static uint64_t open_version(uint64_t version) { return open_weighted(version, (const uint8_t[4]){1, 1, 1, 1}); }

/* Opens it and takes the turn of its SEND, so that what follows is due first. */
static void open_and_send(uint64_t version)
{
    memset(state, 0xa5, sizeof state);
    expect(pack_refusal_of((pack_answer){open_version(version)}) == PACK_ACCEPTED, "opening is accepted");
    pack_answer turn = pack_turn(state, PACK_STATE_WORDS, message, sizeof message, line, sizeof line);
    expect(pack_outcome_of(turn) == PACK_OUTCOME_SENT && message[PACK_BYTE_VERSION] == version, "its SEND");
}

/* Delivers a message of one value with these first five bytes, in session 7, over the link of its sender. */
static enum pack_refusal deliver(const uint8_t *first, uint64_t value)
{
    uint8_t bytes[20] = {[5] = 1, [11] = 7};
    memcpy(bytes, first, 5);
    for (unsigned k = 0; k < 8; k++)
        bytes[12 + k] = (uint8_t)(value >> 8 * (7 - k));
    return pack_refusal_of(pack_deliver(state, PACK_STATE_WORDS, first[2], bytes, sizeof bytes, line, sizeof line));
}

/* FINISHes of a value in a vote, from each sender of a list that 0 ends. */
static void finish(uint8_t vote, uint64_t value, const uint8_t *senders)
{
    for (; *senders != 0; senders++)
        expect(deliver((const uint8_t[]){2, PACK_KIND_FINISH, *senders, vote, 0}, value) == PACK_ACCEPTED, "a FINISH");
}

/* READYs of a value from 2, 3 and 4: broadcast i has that output. */
static void give_output(uint8_t version, uint8_t i, uint64_t value)
{
    for (uint8_t p = 2; p <= 4; p++)
        expect(deliver((const uint8_t[]){version, PACK_KIND_READY, p, i, 0}, value) == PACK_ACCEPTED, "a READY");
}

/* Whether the next turn sends this one value. */
static bool sends(enum pack_kind kind, uint8_t instance, uint8_t round, uint8_t value)
{
    pack_answer turn = pack_turn(state, PACK_STATE_WORDS, message, sizeof message, line, sizeof line);
    uint8_t bytes[20] = {(uint8_t)state[VERSION], kind, 1, instance, round, 1, 0, 0, 0, 0, 0, 7, [19] = value};
    return turn.number == (20u << 16 | 1 << 8) && memcmp(message, bytes, sizeof bytes) == 0;
}

static bool idles(void)
{
    return pack_turn(state, PACK_STATE_WORDS, message, sizeof message, line, sizeof line).number == 0;
}

static pack_answer report(void)
{
    uint64_t named[PACK_SET_WORDS], in_force[PACK_SET_WORDS];
    return pack_report(state, PACK_STATE_WORDS, named, PACK_SET_WORDS, in_force, PACK_SET_WORDS);
}

static void test_openings(void)
{
    static const uint64_t others[] = {0, 3, 255, 256 + 1, ((uint64_t)1 << 32) + 1, UINT64_MAX};
    memset(state, 0xa5, sizeof state);
    memcpy(old, state, sizeof old);
    for (size_t k = 0; k < sizeof others / sizeof others[0]; k++)
        expect(open_version(others[k]) == PACK_REFUSED_SETTINGS, "opening, another version");
    expect(memcmp(old, state, sizeof old) == 0, "a version that is refused leaves the state");
    for (uint64_t version = 1; version <= 2; version++) {
        char opened[] = "O\t?\t4\t1\t1\t1\t7\t0000000000000005\t00000001\t00000001\t00000001\t00000001\t1\t1\t1\t1\t0\n";
        opened[2] = (char)('0' + version);
        expect(open_version(version) == (sizeof opened - 1) << 16, "opening, version 1 and 2");
        expect(memcmp(line, opened, sizeof opened - 1) == 0, "the line of an opening has its version");
        expect(state[VERSION] == version, "so has the state");
    }
}

static void test_other_version(void)
{
    for (uint8_t version = 1; version <= 2; version++) {
        open_and_send(version);
        memcpy(old, state, sizeof old);
        for (unsigned other = 0; other < 256; other++)
            expect(other == version ||
                       deliver((const uint8_t[]){(uint8_t)other, PACK_KIND_SEND, 2, 2, 0}, 6) == PACK_REFUSED_KIND,
                   "a message of another version");
        expect(deliver((const uint8_t[]){version, 0, 2, 2, 0}, 6) == PACK_REFUSED_KIND, "kind 0");
        expect(deliver((const uint8_t[]){version, 8, 2, 2, 0}, 1) == PACK_REFUSED_KIND, "kind 8");
        expect(deliver((const uint8_t[]){3 - version, PACK_KIND_FINISH, 2, 2, 0}, 1) == PACK_REFUSED_KIND,
               "a FINISH of the other version");
        expect(memcmp(old, state, sizeof old) == 0, "a message of another version leaves the state");
        expect(deliver((const uint8_t[]){version, PACK_KIND_SEND, 2, 2, 0}, 6) == PACK_ACCEPTED, "the own version");
        enum pack_refusal refusal = deliver((const uint8_t[]){version, PACK_KIND_FINISH, 2, 2, 0}, 1);
        expect(refusal == (version == 1 ? PACK_REFUSED_KIND : PACK_ACCEPTED), "a FINISH, in version 2 alone");
    }
}

static void test_finish_refusals(void)
{
    static const uint8_t two_values[28] = {2, 7, 2, 1, 0, 2, [11] = 7}, reserved[20] = {2, 7, 2, 1, 0, 1, 0, 1, [11] = 7};
    open_and_send(2);
    memcpy(old, state, sizeof old);
    expect(deliver((const uint8_t[]){2, 7, 2, 0, 0}, 1) == PACK_REFUSED_FIELD, "FINISH, instance 0");
    expect(deliver((const uint8_t[]){2, 7, 2, 5, 0}, 1) == PACK_REFUSED_FIELD, "FINISH, instance 5");
    expect(deliver((const uint8_t[]){2, 7, 2, 1, 1}, 1) == PACK_REFUSED_FIELD, "FINISH, round 1");
    expect(deliver((const uint8_t[]){2, 7, 2, 1, 1}, 2) == PACK_REFUSED_FIELD, "FINISH, round before value");
    expect(deliver((const uint8_t[]){2, 7, 5, 1, 1}, 1) == PACK_REFUSED_SENDER, "FINISH, sender 5 of 4");
    expect(pack_deliver(state, PACK_STATE_WORDS, 2, two_values, 28, line, sizeof line).number == PACK_REFUSED_FIELD,
           "FINISH, two values");
    expect(pack_deliver(state, PACK_STATE_WORDS, 2, reserved, 20, line, sizeof line).number == PACK_REFUSED_FIELD,
           "FINISH, byte 7");
    expect(deliver((const uint8_t[]){2, 7, 2, 1, 0}, 2) == PACK_REFUSED_VALUE, "FINISH 2");
    expect(deliver((const uint8_t[]){2, 7, 2, 1, 0}, (uint64_t)1 << 32) == PACK_REFUSED_VALUE, "FINISH 2^32");
    expect(memcmp(old, state, sizeof old) == 0, "a refused FINISH leaves the state");
    expect(deliver((const uint8_t[]){2, 7, 2, 1, 0}, 1) == PACK_ACCEPTED, "FINISH 1");
    expect(deliver((const uint8_t[]){2, 7, 2, 1, 0}, 1) == PACK_REFUSED_HELD, "FINISH 1 again");
    expect(deliver((const uint8_t[]){2, 7, 2, 1, 0}, 0) == PACK_REFUSED_HELD, "FINISH 0 of the same sender");
    expect(deliver((const uint8_t[]){2, 7, 2, 4, 0}, 0) == PACK_ACCEPTED, "FINISH 0 in another vote");
    expect(deliver((const uint8_t[]){2, 7, 3, 1, 0}, 0) == PACK_ACCEPTED, "FINISH 0 of another sender");
}

/* FINISHes of ta + 1 are repeated before the vote starts, once; the vote goes on. */
static void test_repeated(void)
{
    open_and_send(2);
    finish(3, 1, (const uint8_t[]){2, 0});
    expect(idles(), "one FINISH is not repeated");
    finish(3, 1, (const uint8_t[]){4, 0});
    expect(sends(PACK_KIND_FINISH, 3, 0, 1) && state[ROUNDS + 3] == 0, "two are, before the start");
    expect(idles(), "once");
    give_output(2, 3, 9);
    expect(sends(PACK_KIND_READY, 3, 0, 9), "the READY is due first");
    expect(sends(PACK_KIND_EST, 3, 1, 1), "a vote without a decision goes on after its FINISH");
    open_and_send(2);
    finish(1, 1, (const uint8_t[]){1, 4, 0});
    finish(1, 0, (const uint8_t[]){2, 3, 0});
    expect(sends(PACK_KIND_FINISH, 1, 0, 0) && idles(), "0 where both values have enough");
}

/* The delivery that completes 2 * ta + 1 decides; the report sees it before any turn. */
static void test_decided(void)
{
    open_and_send(2);
    for (uint8_t i = 1; i <= 3; i++)
        give_output(2, i, 4 + i);
    for (uint8_t i = 1; i <= 3; i++)
        finish(i, 1, (const uint8_t[]){2, 3, 4, 0});
    finish(4, 0, (const uint8_t[]){1, 2, 0});
    expect(pack_exit_of(report()) == 0 && state[DECIDED_ONE] == 7 && state[DECIDED_ZERO] == 0, "three votes are decided");
    finish(4, 0, (const uint8_t[]){3, 0});
    expect(state[DECIDED_ONE] == 7 && state[DECIDED_ZERO] == 8, "the third FINISH decides the last");
    pack_answer answer = report();
    expect(pack_exit_of(answer) == 3 && pack_named_of(answer) == 3 && pack_turns_of(answer) == 1, "and no turn does");
    open_and_send(2);
    state[DECIDED_ZERO] = 1;
    finish(1, 1, (const uint8_t[]){2, 3, 4, 0});
    expect(state[DECIDED_ZERO] == 1 && state[DECIDED_ONE] == 0, "a decision stands against FINISHes");
    expect(sends(PACK_KIND_FINISH, 1, 0, 0) && idles(), "its FINISH has the decided value");
    expect(pack_refusal_of((pack_answer){open_weighted(2, (const uint8_t[4]){1, 2, 1, 1})}) == PACK_ACCEPTED, "weights");
    finish(1, 1, (const uint8_t[]){3, 0});
    expect(state[DECIDED_ONE] == 0, "a weight of 1 decides nothing");
    finish(1, 1, (const uint8_t[]){2, 0});
    expect(state[DECIDED_ONE] == 1, "with one of 2 it is 2 * ta + 1");
}

/* After its FINISH and a decision a vote does nothing more, where version 1 relays. */
static void test_silent(void)
{
    for (uint8_t version = 1; version <= 2; version++) {
        open_and_send(version);
        give_output(version, 1, 9);
        expect(sends(PACK_KIND_READY, 1, 0, 9) && sends(PACK_KIND_EST, 1, 1, 1), "the vote has started");
        if (version == 2) {
            finish(1, 1, (const uint8_t[]){2, 3, 4, 0});
            expect(sends(PACK_KIND_FINISH, 1, 0, 1), "its FINISH");
        }
        for (uint8_t p = 2; p <= 4; p++)
            expect(deliver((const uint8_t[]){version, PACK_KIND_EST, p, 1, 1}, 0) == PACK_ACCEPTED, "an EST");
        expect(version == 2 ? idles() : sends(PACK_KIND_EST, 1, 1, 0), "a relay, in version 1 alone");
    }
    open_and_send(2);
    finish(2, 1, (const uint8_t[]){2, 3, 4, 0});
    give_output(2, 2, 9);
    expect(sends(PACK_KIND_READY, 2, 0, 9) && sends(PACK_KIND_FINISH, 2, 0, 1), "a FINISH before the start");
    expect(idles() && state[ROUNDS + 2] == 0, "a vote that was decided before its start does not start");
    open_and_send(2);
    state[ROUNDS + 4] = PACK_ROUNDS + 1;
    finish(4, 1, (const uint8_t[]){2, 3, 0});
    expect(sends(PACK_KIND_FINISH, 4, 0, 1), "a FINISH after round 32");
}

/* Under Exit 1 FINISHes decide, and none is sent. */
static void test_exit_1(void)
{
    open_and_send(2);
    for (uint8_t i = 1; i <= 3; i++)
        give_output(2, i, 5);
    finish(4, 1, (const uint8_t[]){2, 3, 4, 0});
    expect(state[DECIDED_ONE] == 8, "a delivery decides under Exit 1");
    expect(sends(PACK_KIND_COMMIT, 0, 0, 5), "the COMMIT");
    for (uint8_t i = 1; i <= 3; i++)
        expect(sends(PACK_KIND_READY, i, 0, 5), "a READY");
    expect(idles(), "no FINISH under Exit 1");
}

static uint64_t restore(const char *journal)
{
    return pack_restore(state, PACK_STATE_WORDS, (const uint8_t *)journal, strlen(journal), message, sizeof message)
        .number;
}

static void test_restore(void)
{
    static const char older[] = "O\t1\t1\t0\t0\t1\t7\t0000000000000005\t00000000\nT\n";
    static const char finished[] = "O\t2\t1\t0\t0\t1\t7\t0000000000000005\t00000000\t1\t0\nT\n"
                                   "D\t1\t0207010100010000000000070000000000000001\nT\n";
    static const char *const refused[] = {"O\t0\t1\t0\t0\t1\t7\t0000000000000005\t00000000\n",
                                          "O\t3\t1\t0\t0\t1\t7\t0000000000000005\t00000000\n",
                                          "O\t02\t1\t0\t0\t1\t7\t0000000000000005\t00000000\n",
                                          "O\t4294967298\t1\t0\t0\t1\t7\t0000000000000005\t00000000\n"};
    for (size_t k = 0; k < sizeof refused / sizeof refused[0]; k++)
        expect(restore(refused[k]) == (1 << 8 | PACK_REFUSED_JOURNAL), "restore, another version");
    expect(restore(older) == ((uint64_t)(sizeof older - 1) << 32 | 20u << 16 | 1 << 8), "restore, an older line");
    expect(state[VERSION] == 1 && message[PACK_BYTE_VERSION] == 1, "it is of version 1");
    expect(restore(finished) == ((uint64_t)(sizeof finished - 1) << 32 | 20u << 16 | 1 << 8), "restore, version 2");
    expect(state[VERSION] == 2 && state[DECIDED_ONE] == 1, "its version, and what a FINISH decided");
    expect(message[PACK_BYTE_VERSION] == 2 && message[PACK_BYTE_KIND] == PACK_KIND_FINISH, "the FINISH again");
    expect(restore("O\t1\t1\t0\t0\t1\t7\t0000000000000005\t00000000\nD\t1\t0207010100010000000000070000000000000001\n") ==
               (2 << 8 | PACK_REFUSED_JOURNAL),
           "restore, a FINISH in version 1");
}

/* Whether every call on the state is refused with 9. */
static bool no_state(void)
{
    return deliver((const uint8_t[]){2, PACK_KIND_SEND, 2, 2, 0}, 6) == PACK_REFUSED_NO_STATE &&
           pack_turn(state, PACK_STATE_WORDS, message, sizeof message, line, sizeof line).number == PACK_REFUSED_NO_STATE &&
           pack_record(state, PACK_STATE_WORDS, 1, 1, 1, line, sizeof line).number == PACK_REFUSED_NO_STATE &&
           report().number == PACK_REFUSED_NO_STATE;
}

static void test_no_state(void)
{
    static const uint64_t others[] = {0, 3, ((uint64_t)1 << 32) + 1, UINT64_MAX};
    open_and_send(2);
    for (size_t k = 0; k < sizeof others / sizeof others[0]; k++) {
        state[VERSION] = others[k];
        expect(no_state(), "a stored version");
    }
    for (uint64_t version = 1; version <= 2; version++) {
        uint64_t most = (98 + version) * 4 + 3;
        open_and_send(version);
        state[TURNS] = most;
        expect(pack_turns_of(report()) == most, "the most turns");
        state[TURNS] = most + 1;
        expect(no_state(), "a turn more");
    }
}

int main(void)
{
    test_openings();
    test_other_version();
    test_finish_refusals();
    test_repeated();
    test_decided();
    test_silent();
    test_exit_1();
    test_restore();
    test_no_state();
    return failures != 0;
}
