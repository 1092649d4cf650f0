/*
 * Votes decided 1 whose broadcasts have output nowhere: that none is so is promised where liars weigh ta at most (PROTOCOL
 * 16.19), and fails with more. Of six, with ta = 1 and ts = 2, concentrator 6 sends nothing but lies, and 5 lies too.
 * Votes 1 to 5 are decided 1, so the honest ones start vote 6 with 0, and their ESTs are slow. 5 and 6 weigh ta + 1: where
 * both send EST 1 in vote 6 all relay it, and it is accepted and decided before a 0 has come. The session stays open then,
 * since Exit 3 waits for an output of 6. Where 6 is silent and 5 lies just as before, vote 6 is decided 0, and the session
 * closes.
 */
#include <string.h>

#include "expect.h"
#include "pack_agreement.h"

enum { N = 6, HONEST = 4, TA = 1, TS = 2, SESSION = 7, SENT = HONEST * (100 * N + 3) };
/* Words of a state: READYs held of an instance, votes decided 1 (PROTOCOL 17.8, 17.10). No call answers either. */
enum { READYS_OF = 103, DECIDED_ONE = 139 };

struct message {
    unsigned sender;
    size_t length;
    uint8_t bytes[PACK_MESSAGE_BYTES];
    bool delivered;
};

/* Those from 1 to HONEST. */
static uint64_t states[HONEST + 1][PACK_STATE_WORDS];
static bool closed[HONEST + 1];
static struct message sent[SENT];
static size_t sent_count;
static enum pack_version version;

static bool decided_one(const uint64_t *state, unsigned vote)
{
    return state[DECIDED_ONE] >> (vote - 1) & 1;
}

static void open_session(uint64_t *state, uint64_t n, uint64_t ta, uint64_t ts, unsigned own)
{
    /* 1 in the first round, then 0: so a vote can be decided either way. */
    static const uint32_t coins[N] = {1, 1, 1, 1, 1, 1};
    static const uint8_t weights[N] = {1, 1, 1, 1, 1, 1};
    uint8_t line[PACK_LINE_BYTES];
    pack_answer opening = pack_open(state, PACK_STATE_WORDS, version, n, ta, ts, own, SESSION, 10 * own, coins, n, weights,
                                    n, PACK_COINS_PRINTED, line, sizeof line);
    expect(pack_refusal_of(opening) == PACK_ACCEPTED, "an opening is accepted");
}

static void deliver(uint64_t *state, unsigned link, const uint8_t *bytes, size_t length)
{
    uint8_t line[PACK_LINE_BYTES];
    pack_answer delivery = pack_deliver(state, PACK_STATE_WORDS, link, bytes, length, line, sizeof line);
    expect(pack_refusal_of(delivery) == PACK_ACCEPTED, "a delivery is accepted");
}

static void lie(uint64_t *state, unsigned liar, enum pack_kind kind, uint8_t instance, uint8_t round, uint8_t value)
{
    const uint8_t bytes[20] = {version, kind, liar, instance, round, 1, 0, 0, 0, 0, 0, SESSION, [19] = value};
    deliver(state, liar, bytes, sizeof bytes);
}

/* 5 puts in pack 50, helps to end the rounds, and says 0 and 1 in vote 6. Its AUXs of 0 count once 0 is accepted. */
static void lie_as_5(uint64_t *state)
{
    lie(state, 5, PACK_KIND_SEND, 5, 0, 50);
    for (uint8_t vote = 1; vote < N; vote++)
        lie(state, 5, PACK_KIND_AUX, vote, 1, 1);
    lie(state, 5, PACK_KIND_EST, 6, 1, 1);
    lie(state, 5, PACK_KIND_AUX, 6, 1, 0);
    lie(state, 5, PACK_KIND_AUX, 6, 2, 0);
}

static void lie_as_6(uint64_t *state)
{
    lie(state, 6, PACK_KIND_EST, 6, 1, 1);
    lie(state, 6, PACK_KIND_AUX, 6, 1, 1);
}

/* Answers whether a turn did anything. */
static bool take_turns(unsigned p)
{
    uint8_t line[PACK_LINE_BYTES];
    bool acted = false;
    while (!closed[p] && sent_count < SENT) {
        struct message *m = &sent[sent_count];
        pack_answer turn = pack_turn(states[p], PACK_STATE_WORDS, m->bytes, sizeof m->bytes, line, sizeof line);
        expect(pack_refusal_of(turn) == PACK_ACCEPTED, "a turn is accepted");
        if (pack_outcome_of(turn) == PACK_OUTCOME_IDLE)
            break;
        acted = true;
        m->sender = p;
        m->length = pack_length_of(turn);
        m->delivered = false;
        sent_count += m->length != 0;
        closed[p] = pack_outcome_of(turn) == PACK_OUTCOME_IN_FORCE;
    }
    return acted;
}

/* What the honest ones say of vote 6 in round 1 before they hear the liars. */
static bool is_slow(const struct message *m)
{
    return pack_message_kind(m->bytes) == PACK_KIND_EST && pack_message_instance(m->bytes) == 6 &&
           pack_message_round(m->bytes) == 1 && m->bytes[19] == 0;
}

static void hear(bool slow_ones)
{
    for (size_t k = 0; k < sent_count; k++) {
        struct message *m = &sent[k];
        if (m->delivered || (is_slow(m) && !slow_ones))
            continue;
        for (unsigned p = 1; p <= HONEST; p++)
            if (!closed[p])
                deliver(states[p], m->sender, m->bytes, m->length);
        m->delivered = true;
    }
}

static void run(bool slow_ones)
{
    for (bool acted = true; acted;) {
        acted = false;
        for (unsigned p = 1; p <= HONEST; p++)
            acted = take_turns(p) || acted;
        hear(slow_ones);
    }
}

/* The whole session, until nothing is on its way. */
static void play(bool both_lie)
{
    sent_count = 0;
    for (unsigned p = 1; p <= HONEST; p++) {
        closed[p] = false;
        open_session(states[p], N, TA, TS, p);
        lie_as_5(states[p]);
        if (both_lie)
            lie_as_6(states[p]);
    }
    run(false);
    hear(true);
    run(true);
}

static void expect_report(const uint64_t *state, unsigned exit, size_t packs)
{
    uint64_t named[PACK_SET_WORDS], in_force[PACK_SET_WORDS];
    pack_answer report = pack_report(state, PACK_STATE_WORDS, named, PACK_SET_WORDS, in_force, PACK_SET_WORDS);
    expect(pack_exit_of(report) == exit, "the exit");
    expect(pack_in_force_of(report) == packs, "the packs in force");
}

static void two_liars(void)
{
    play(true);
    for (unsigned p = 1; p <= HONEST; p++) {
        expect(decided_one(states[p], 6), "two liars: vote 6 is decided 1");
        expect(states[p][READYS_OF + 6] == 0, "two liars: no READY of 6 is held, so there is no output");
        expect_report(states[p], 0, 0);
    }
}

static void one_liar(void)
{
    play(false);
    for (unsigned p = 1; p <= HONEST; p++) {
        expect(decided_one(states[p], 5), "one liar: vote 5, with an output, is decided 1");
        expect(!decided_one(states[p], 6), "one liar: vote 6 is not decided 1");
        expect_report(states[p], 3, 5);
    }
}

/* With ta = 0 one FINISH decides a vote: of three, with ts = 1, that of a liar. */
static void one_finish(void)
{
    static uint64_t state[PACK_STATE_WORDS];
    open_session(state, 3, 0, 1, 1);
    lie(state, 3, PACK_KIND_FINISH, 3, 0, 1);
    expect(decided_one(state, 3) && state[READYS_OF + 3] == 0, "one FINISH: vote 3 is decided 1, with no output");
}

int main(void)
{
    for (version = PACK_VERSION_1; version <= PACK_VERSION_2; version++) {
        two_liars();
        one_liar();
    }
    version = PACK_VERSION_2;
    one_finish();
    return failures != 0;
}
