/*
 * Two sets in force without a liar: 3 and 4 lose power and open their session again, with a newer pack. Then the same
 * with 3 and 4 restored from their journals, and one set. docs/HOST.md tells the story. Both versions end alike.
 */
#include <inttypes.h>
#include <stdbool.h>
#include <stdio.h>
#include <stdlib.h>
#include <string.h>

#include "pack_agreement.h"

enum { N = 4, TA = 1, TS = 1, SESSION = 49, SENT = 100 * N + 3, JOURNAL = 1 << 16 };

struct message {
    size_t length;
    uint8_t bytes[PACK_MESSAGE_BYTES];
    /* Those who got it. */
    bool got[N + 1];
};

struct concentrator {
    uint64_t state[PACK_STATE_WORDS];
    bool closed, radio;
    struct message sent[SENT];
    size_t sent_count;
    /* What a loss of power leaves. */
    uint8_t journal[JOURNAL];
    size_t journal_bytes;
};

/* Those from 1 to N. */
static struct concentrator all[N + 1];
static unsigned refusals;
static enum pack_version version;

/* Whether a call was accepted. A message that is held already may come again; nothing else is refused here. */
static bool accepted(pack_answer answer)
{
    enum pack_refusal refusal = pack_refusal_of(answer);
    if (refusal == PACK_ACCEPTED)
        return true;
    refusals++;
    if (refusal != PACK_REFUSED_HELD) {
        printf("refused: %s\n", pack_refusal_name(refusal));
        exit(1);
    }
    return false;
}

/* Stores a line behind the journal. */
static void store(struct concentrator *c, const uint8_t *line, size_t length)
{
    if (length > sizeof c->journal - c->journal_bytes)
        exit(1);
    memcpy(c->journal + c->journal_bytes, line, length);
    c->journal_bytes += length;
}

/* Keeps a message that goes to all, the sender too. */
static void keep_for_all(struct concentrator *c, const uint8_t *bytes, size_t length)
{
    if (c->sent_count == SENT)
        exit(1);
    struct message *m = &c->sent[c->sent_count++];
    memset(m, 0, sizeof *m);
    memcpy(m->bytes, bytes, length);
    m->length = length;
}

static void take_turns(unsigned p)
{
    struct concentrator *c = &all[p];
    uint8_t message[PACK_MESSAGE_BYTES], line[PACK_LINE_BYTES];
    while (!c->closed) {
        pack_answer turn = pack_turn(c->state, PACK_STATE_WORDS, message, sizeof message, line, sizeof line);
        if (!accepted(turn) || pack_outcome_of(turn) == PACK_OUTCOME_IDLE)
            return;
        store(c, line, PACK_TURN_LINE);
        if (pack_outcome_of(turn) == PACK_OUTCOME_SENT)
            keep_for_all(c, message, pack_length_of(turn));
        c->closed = pack_outcome_of(turn) == PACK_OUTCOME_IN_FORCE;
    }
}

/* All openings have the same settings and coins. The journal starts anew. */
static void open_session(unsigned p, uint64_t pack)
{
    static const uint32_t coins[N] = {1, 1, 1, 1};
    static const uint8_t weights[N] = {1, 1, 1, 1};
    struct concentrator *c = &all[p];
    uint8_t line[PACK_LINE_BYTES];
    pack_answer opening = pack_open(c->state, PACK_STATE_WORDS, version, N, TA, TS, p, SESSION, pack, coins, N, weights,
                                    N, PACK_COINS_PRINTED, line, sizeof line);
    if (!accepted(opening))
        exit(1);
    c->journal_bytes = 0;
    store(c, line, pack_length_of(opening));
    take_turns(p);
}

/* The state after all lines of the journal, and all messages again: each is given by the lines up to its own. */
static void restore_session(unsigned p)
{
    struct concentrator *c = &all[p];
    uint8_t message[PACK_MESSAGE_BYTES];
    for (size_t end = 1; end <= c->journal_bytes; end++) {
        if (c->journal[end - 1] != '\n')
            continue;
        pack_answer restore = pack_restore(c->state, PACK_STATE_WORDS, c->journal, end, message, sizeof message);
        if (!accepted(restore))
            exit(1);
        if (pack_outcome_of(restore) == PACK_OUTCOME_SENT)
            keep_for_all(c, message, pack_length_of(restore));
    }
    take_turns(p);
}

/* Concentrator p hears q: what q sent and p did not get. Answers whether there was anything. */
static bool hear(unsigned p, unsigned q)
{
    struct concentrator *c = &all[p];
    uint8_t line[PACK_LINE_BYTES];
    bool heard = false;
    for (size_t k = 0; k < all[q].sent_count && !c->closed; k++) {
        struct message *m = &all[q].sent[k];
        if (m->got[p] || (p != q && !(c->radio && all[q].radio)))
            continue;
        m->got[p] = heard = true;
        pack_answer delivery = pack_deliver(c->state, PACK_STATE_WORDS, q, m->bytes, m->length, line, sizeof line);
        if (accepted(delivery))
            store(c, line, pack_length_of(delivery));
    }
    return heard;
}

/* One after another hears all and takes its turns, until `last` is closed or nothing is left. */
static void run_until_closed(unsigned last)
{
    for (bool heard = true; heard;) {
        heard = false;
        for (unsigned p = 1; p <= N; p++) {
            for (unsigned q = 1; q <= N; q++)
                heard = hear(p, q) || heard;
            take_turns(p);
            if (last != 0 && all[last].closed)
                return;
        }
    }
}

/* State and messages of an open session are gone, the journal stays. */
static void lose_power(unsigned p)
{
    memset(all[p].state, 0xa5, sizeof all[p].state);
    all[p].sent_count = 0;
}

/* The one pack in force, or 0 where that is not so. */
static uint64_t in_force(unsigned p)
{
    uint64_t named[PACK_SET_WORDS], set[PACK_SET_WORDS];
    pack_answer report = pack_report(all[p].state, PACK_STATE_WORDS, named, PACK_SET_WORDS, set, PACK_SET_WORDS);
    return accepted(report) && pack_in_force_of(report) == 1 ? set[0] : 0;
}

/* The story; 3 and 4 come back by their journals, or by a second opening. */
static void play(bool journals)
{
    static const uint64_t packs[N + 1] = {0, 5, 6, 5, 5};
    memset(all, 0, sizeof all);
    refusals = 0;
    for (unsigned p = 1; p <= N; p++) {
        open_session(p, packs[p]);
        all[p].radio = p != 2;
    }
    run_until_closed(1);
    for (unsigned p = 3; p <= 4; p++) {
        lose_power(p);
        if (journals)
            restore_session(p);
        else
            open_session(p, 6);
    }
    all[2].radio = true;
    run_until_closed(0);
}

/* Plays it in both versions and prints how it ends. */
static void play_both(bool journals)
{
    uint64_t other[N + 1];
    version = PACK_VERSION_2;
    play(journals);
    for (unsigned p = 1; p <= N; p++)
        other[p] = in_force(p);
    version = PACK_VERSION_1;
    play(journals);
    for (unsigned p = 1; p <= N; p++) {
        printf("concentrator %u: pack %" PRIu64 " in force\n", p, in_force(p));
        if (other[p] != in_force(p))
            printf("in version 2: pack %" PRIu64 "\n", other[p]);
    }
}

int main(void)
{
    puts("1, 3 and 4 have pack 5, 2 has pack 6. The radio of 2 is down; 1 closes; then 3 and 4 lose power.");
    puts("\n3 and 4 open the session again, with pack 6:");
    play_both(false);
    printf("Calls refused: %u. Two sets: 3 and 4 opened twice, and a second opening is a second voice.\n", refusals);
    puts("1 counted their COMMITs to 5, 2 counts those to 6. They count as two liars, and ta and ts are 1.");
    puts("\n3 and 4 are restored from their journals:");
    play_both(true);
    printf("Calls refused: %u, messages that came again. One set: 3 and 4 say what they said.\n", refusals);
    return 0;
}
