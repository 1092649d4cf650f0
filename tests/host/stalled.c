/*
 * The same deliveries in both versions: in version 1 the session closes, in version 2 it comes to rest with no set in force.
 * Of four, with ta = ts = 1, concentrator 4 has 1 decide vote 4 in round 1 by an AUX that nobody else gets, and is not heard
 * any more. In version 2 neither is 1, but for its FINISH: 2 and 3 miss an AUX in round 2, and a FINISH to send their own.
 * 4 may lie, and need not: here it keeps the rules, and what reaches the others are messages that its turns sent; its radio
 * loses all the rest.
 */
#include <stdlib.h>
#include <string.h>

#include "expect.h"
#include "pack_agreement.h"

enum { N = 4, TA = 1, TS = 1, SESSION = 50, HEARD = 3, LOST = 4, SENT = 100 * N + 3 };

struct message {
    size_t length;
    uint8_t bytes[PACK_MESSAGE_BYTES];
    /* Those who got it. */
    bool got[N + 1];
};

struct concentrator {
    uint64_t state[PACK_STATE_WORDS];
    bool closed;
    struct message sent[SENT];
    size_t sent_count;
};

/* Those from 1 to N; what 1 to HEARD send reaches everybody up there, what LOST sends hardly anybody. */
static struct concentrator all[N + 1];
static enum pack_version version;

static void take_turns(unsigned p)
{
    struct concentrator *c = &all[p];
    uint8_t line[PACK_LINE_BYTES];
    while (!c->closed) {
        if (c->sent_count == SENT)
            exit(1);
        struct message *m = &c->sent[c->sent_count];
        memset(m, 0, sizeof *m);
        pack_answer turn = pack_turn(c->state, PACK_STATE_WORDS, m->bytes, sizeof m->bytes, line, sizeof line);
        expect(pack_refusal_of(turn) == PACK_ACCEPTED, "a turn is accepted");
        if (pack_outcome_of(turn) == PACK_OUTCOME_IDLE)
            return;
        m->length = pack_length_of(turn);
        c->sent_count += m->length != 0;
        c->closed = pack_outcome_of(turn) == PACK_OUTCOME_IN_FORCE;
    }
}

static void open_session(unsigned p)
{
    static const uint32_t coins[N] = {UINT32_MAX, UINT32_MAX, UINT32_MAX, UINT32_MAX};
    static const uint8_t weights[N] = {1, 1, 1, 1};
    uint8_t line[PACK_LINE_BYTES];
    pack_answer opening = pack_open(all[p].state, PACK_STATE_WORDS, version, N, TA, TS, p, SESSION, 4 + p, coins, N,
                                    weights, N, PACK_COINS_PRINTED, line, sizeof line);
    expect(pack_refusal_of(opening) == PACK_ACCEPTED, "an opening is accepted");
    take_turns(p);
}

static void deliver(unsigned p, unsigned link, const uint8_t *bytes, size_t length)
{
    uint8_t line[PACK_LINE_BYTES];
    pack_answer delivery = pack_deliver(all[p].state, PACK_STATE_WORDS, link, bytes, length, line, sizeof line);
    expect(pack_refusal_of(delivery) == PACK_ACCEPTED, "a delivery is accepted");
}

/* Whether a turn of 4 sent these bytes. */
static bool was_sent(const uint8_t *bytes, size_t length)
{
    for (size_t k = 0; k < all[LOST].sent_count; k++) {
        const struct message *m = &all[LOST].sent[k];
        if (m->length == length && memcmp(m->bytes, bytes, length) == 0)
            return true;
    }
    return false;
}

/* A message of 4, in instance 4, reaches p. */
static void reach(unsigned p, enum pack_kind kind, uint8_t round, uint8_t value)
{
    const uint8_t bytes[20] = {version, kind, LOST, 4, round, 1, 0, 0, 0, 0, 0, SESSION, [19] = value};
    expect(was_sent(bytes, sizeof bytes), "4 keeps the rules: it has sent what is heard of it");
    deliver(p, LOST, bytes, sizeof bytes);
}

/* Which messages go on to whom. */
typedef bool wanted_by(unsigned p, unsigned sender, const uint8_t *bytes);

static bool hear(unsigned p, unsigned sender, wanted_by *wanted)
{
    bool heard = false;
    for (size_t k = 0; k < all[sender].sent_count && !all[p].closed; k++) {
        struct message *m = &all[sender].sent[k];
        if (m->got[p] || !wanted(p, sender, m->bytes))
            continue;
        deliver(p, sender, m->bytes, m->length);
        m->got[p] = heard = true;
    }
    return heard;
}

/* One after another hears what is wanted and takes its turns, until nothing is left. */
static void run(wanted_by *wanted)
{
    for (bool heard = true; heard;) {
        heard = false;
        for (unsigned p = 1; p <= N; p++) {
            for (unsigned sender = 1; sender <= HEARD; sender++)
                heard = hear(p, sender, wanted) || heard;
            take_turns(p);
        }
    }
}

static bool in_vote_4(const uint8_t *bytes, enum pack_kind kind, uint8_t value)
{
    return pack_message_kind(bytes) == kind && pack_message_instance(bytes) == 4 && bytes[19] == value;
}

/* Vote 4 waits, and 3 and 4 have no output of broadcast 4: they start that vote with 0. */
static bool all_but_vote_4(unsigned p, unsigned sender, const uint8_t *bytes)
{
    enum pack_kind kind = pack_message_kind(bytes);
    bool voting = kind == PACK_KIND_EST || kind == PACK_KIND_AUX || kind == PACK_KIND_FINISH;
    bool late = kind == PACK_KIND_READY && ((p == 3 && sender != 3) || p == LOST);
    return pack_message_instance(bytes) != 4 || !(voting || late);
}

/* 3 sends EST 1, too, but does not accept it yet; 1, 2 and 4 do. */
static bool est_1(unsigned p, unsigned sender, const uint8_t *bytes)
{
    return in_vote_4(bytes, PACK_KIND_EST, 1) && (p != 3 || sender != 3);
}

/* From here on 4 hears nothing. */
static bool est_0(unsigned p, unsigned sender, const uint8_t *bytes)
{
    (void)sender;
    return in_vote_4(bytes, PACK_KIND_EST, 0) && p != LOST;
}

/* 1 hears no AUX 0. */
static bool aux_1_to_1(unsigned p, unsigned sender, const uint8_t *bytes)
{
    return in_vote_4(bytes, PACK_KIND_AUX, 1) && p == 1 && sender != 3;
}

static bool everything(unsigned p, unsigned sender, const uint8_t *bytes)
{
    (void)sender, (void)bytes;
    return p != LOST;
}

static void play(enum pack_version played)
{
    memset(all, 0, sizeof all);
    version = played;
    for (unsigned p = 1; p <= N; p++)
        open_session(p);
    for (unsigned p = 1; p <= HEARD; p++)
        reach(p, PACK_KIND_SEND, 0, 8);
    run(all_but_vote_4);
    run(est_1);
    for (unsigned p = 1; p <= HEARD; p++)
        reach(p, PACK_KIND_EST, 1, 0);
    run(est_0);
    reach(1, PACK_KIND_AUX, 1, 1);
    run(aux_1_to_1);
    run(everything);
}

/* The exit at p, or 0; `in_force` is how many packs are in force. */
static unsigned exit_at(unsigned p, size_t *in_force)
{
    uint64_t named[PACK_SET_WORDS], set[PACK_SET_WORDS];
    pack_answer report = pack_report(all[p].state, PACK_STATE_WORDS, named, PACK_SET_WORDS, set, PACK_SET_WORDS);
    *in_force = pack_in_force_of(report);
    return pack_exit_of(report);
}

int main(void)
{
    size_t in_force;
    play(PACK_VERSION_1);
    for (unsigned p = 1; p <= HEARD; p++)
        expect(exit_at(p, &in_force) == 3 && in_force == 4 && all[p].closed, "version 1 closes on all four packs");
    play(PACK_VERSION_2);
    expect(exit_at(1, &in_force) == 3 && in_force == 0, "version 2, 1 has decided all votes and names a set");
    for (unsigned p = 2; p <= HEARD; p++)
        expect(exit_at(p, &in_force) == 0 && in_force == 0, "version 2, 2 and 3 name none");
    for (unsigned p = 1; p <= HEARD; p++)
        expect(!all[p].closed, "version 2 rests without closing");
    return failures != 0;
}
