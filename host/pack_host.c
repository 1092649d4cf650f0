/*
 * A concentrator's own program, for trying a session out: it opens the session at all n concentrators in one process,
 * moves the messages between them, and prints how each ended. With journals it can be killed at any moment and started
 * again, and goes on where it was: a line is in its file before the message leaves, and the messages of a journal can be
 * had again from it. In a boxed session the box is in this process too; in the field it is a device of its own.
 */
#include <errno.h>
#include <inttypes.h>
#include <stdbool.h>
#include <stdio.h>
#include <stdlib.h>
#include <string.h>

#include "coins.h"
#include "journal.h"
#include "options.h"
#include "pack_agreement.h"

struct message {
    uint64_t sender;
    size_t length;
    /* The deliveries that its sender had taken, and its place among the messages that were put into the queue. */
    size_t taken, place;
    uint8_t bytes[PACK_MESSAGE_BYTES];
};

/* The messages in order of sending; those before `next` have gone to everybody. */
struct queue {
    struct message *items;
    size_t count, capacity, next;
};

/* A concentrator takes the messages of the queue one after another, until it is closed. */
struct concentrator {
    uint64_t state[PACK_STATE_WORDS];
    bool closed;
    size_t taken;
    struct journal journal;
    struct coins coins;
};

struct session {
    struct options options;
    /* The minute from which a set is in force, where there is a calendar. */
    uint32_t start;
    struct concentrator all[PACK_CONCENTRATORS];
    struct queue queue;
    uint64_t coin_box[PACK_BOX_WORDS];
};

/* Tells of a refusal at a concentrator, or at none, with number 0. */
static bool refused(const char *call, uint64_t number, pack_answer answer)
{
    enum pack_refusal refusal = pack_refusal_of(answer);
    fputs("pack_host: ", stderr);
    if (number != 0)
        fprintf(stderr, "concentrator %" PRIu64 ": ", number);
    fprintf(stderr, "%s refused: %u %s", call, (unsigned)refusal, pack_refusal_name(refusal));
    if (refusal == PACK_REFUSED_JOURNAL)
        fprintf(stderr, ", line %" PRIu64, pack_line_of(answer));
    fputc('\n', stderr);
    return false;
}

/* A place for one more message, or NULL. */
static struct message *next_place(struct queue *q)
{
    if (q->count == q->capacity) {
        size_t capacity = q->capacity == 0 ? 64 : 2 * q->capacity;
        struct message *items = realloc(q->items, capacity * sizeof *items);
        if (items == NULL) {
            fail("out of memory", "queue");
            return NULL;
        }
        q->items = items;
        q->capacity = capacity;
    }
    return &q->items[q->count];
}

/* The place at the end of the queue now holds a message. */
static void put(struct queue *q, uint64_t sender, size_t length, size_t taken)
{
    struct message *m = &q->items[q->count];
    m->sender = sender;
    m->length = length;
    m->taken = taken;
    m->place = q->count++;
}

/*
 * Concentrator p asks the box for the coin of the round that a vote is in. What it is told goes to `bit`; where that is
 * sealed, `told` is false.
 */
static bool request(struct session *x, uint64_t p, uint64_t vote, bool *told, uint64_t *bit)
{
    uint64_t round = coins_round(&x->all[p - 1].coins, vote);
    pack_answer answer = pack_box_request(x->coin_box, PACK_BOX_WORDS, p, vote, round);
    *told = pack_told_of(answer);
    *bit = pack_bit_of(answer);
    return pack_refusal_of(answer) == PACK_ACCEPTED || refused("request", p, answer);
}

/* A message that a turn of concentrator p sent; in a boxed session p asks for the coin of a round that it enters. */
static bool note_sent(struct session *x, uint64_t p, const uint8_t *message)
{
    bool told;
    uint64_t bit, vote = coins_note_sent(&x->all[p - 1].coins, message);
    return !x->options.boxed || vote == 0 || request(x, p, vote, &told, &bit);
}

/*
 * Puts the messages of a journal into the queue: each is given again by the lines up to its own. What the box was asked
 * before is asked again, since it was in the process that ended.
 */
static bool send_again(struct session *x, uint64_t p, const uint8_t *lines, size_t length)
{
    static uint64_t state[PACK_STATE_WORDS];
    struct concentrator *c = &x->all[p - 1];
    for (size_t start = 0, end; (end = journal_line_end(lines, length, start)) != 0; start = end) {
        c->taken += lines[start] == 'D';
        coins_note_line(&c->coins, lines + start);
        if (lines[start] != 'T')
            continue;
        struct message *m = next_place(&x->queue);
        if (m == NULL)
            return false;
        pack_answer answer = pack_restore(state, PACK_STATE_WORDS, lines, end, m->bytes, sizeof m->bytes);
        if (pack_refusal_of(answer) != PACK_ACCEPTED)
            return refused("restore", p, answer);
        if (pack_length_of(answer) == 0)
            continue;
        put(&x->queue, p, pack_length_of(answer), c->taken);
        if (!note_sent(x, p, m->bytes))
            return false;
    }
    return true;
}

/*
 * The order of delivery: all take their turns between the same deliveries, and what they send there goes out one
 * concentrator after another. So the journals alone tell the order.
 */
static int by_sending(const void *one, const void *other)
{
    const struct message *a = one, *b = other;
    if (a->taken != b->taken)
        return a->taken < b->taken ? -1 : 1;
    if (a->sender != b->sender)
        return a->sender < b->sender ? -1 : 1;
    return a->place < b->place ? -1 : a->place > b->place;
}

/* Puts the messages that were not delivered yet into their order. */
static void sort(struct queue *q)
{
    if (q->next < q->count)
        qsort(q->items + q->next, q->count - q->next, sizeof *q->items, by_sending);
}

/* Goes on from a journal that was read, if its first line is that of the opening. */
static bool resume(struct session *x, uint64_t p, const uint8_t *opening, size_t length)
{
    struct concentrator *c = &x->all[p - 1];
    struct journal *j = &c->journal;
    uint8_t message[PACK_MESSAGE_BYTES];
    uint64_t set[2][PACK_SET_WORDS];
    if (j->length < length || memcmp(j->lines, opening, length) != 0)
        return fail("the journal of another session", j->path);
    pack_answer answer = pack_restore(c->state, PACK_STATE_WORDS, j->lines, j->length, message, sizeof message);
    if (pack_refusal_of(answer) != PACK_ACCEPTED)
        return refused("restore", p, answer);
    size_t complete = pack_complete_of(answer);
    if (!send_again(x, p, j->lines, complete) || !journal_cut(j, complete))
        return false;
    answer = pack_report(c->state, PACK_STATE_WORDS, set[0], PACK_SET_WORDS, set[1], PACK_SET_WORDS);
    c->closed = pack_in_force_of(answer) != 0;
    return true;
}

/* Opens the session at concentrator p, or goes on from its journal. */
static bool open_one(struct session *x, uint64_t p, const uint32_t *coins)
{
    const struct options *o = &x->options;
    struct concentrator *c = &x->all[p - 1];
    uint8_t line[PACK_LINE_BYTES];
    enum pack_coins where = o->boxed ? PACK_COINS_BOXED : PACK_COINS_PRINTED;
    pack_answer answer = pack_open(c->state, PACK_STATE_WORDS, o->version, o->n, o->ta, o->ts, p, o->session,
                                   o->inputs[p - 1], coins, o->n, o->weights, o->n, where, line, sizeof line);
    size_t length = pack_length_of(answer);
    if (pack_refusal_of(answer) != PACK_ACCEPTED)
        return refused("opening", p, answer);
    if (o->journals == NULL)
        return true;
    if (!journal_read(&c->journal, o->journals, p))
        return false;
    struct journal *j = &c->journal;
    bool begun = journal_line_end(j->lines, j->length, 0) != 0;
    bool done = begun ? resume(x, p, line, length) : journal_cut(j, 0) && journal_add(j, line, length);
    journal_forget(j);
    return done;
}

/* Asks the calendar, where there is one, for the start: no session is opened with one that is refused. */
static bool ask_calendar(struct session *x)
{
    const struct options *o = &x->options;
    if (o->window_numbers == 0)
        return true;
    pack_answer answer = pack_start_minute(o->windows, o->window_numbers, o->closing, o->lead);
    x->start = pack_minute_of(answer);
    return pack_refusal_of(answer) == PACK_ACCEPTED || refused("calendar", 0, answer);
}

/* Opens the box where there is one, and then the session; the coins are in the one or in the other. */
static bool open_all(struct session *x)
{
    const struct options *o = &x->options;
    uint32_t coins[PACK_CONCENTRATORS], none[PACK_CONCENTRATORS] = {0};
    for (size_t i = 0; i < o->n; i++)
        coins[i] = o->coin;
    if (o->boxed) {
        pack_answer answer =
            pack_box_open(x->coin_box, PACK_BOX_WORDS, o->n, o->ta, o->ts, coins, o->n, o->weights, o->n);
        if (pack_refusal_of(answer) != PACK_ACCEPTED)
            return refused("opening of the box", 0, answer);
    }
    for (uint64_t p = 1; p <= o->n; p++)
        if (!open_one(x, p, o->boxed ? none : coins))
            return false;
    sort(&x->queue);
    return true;
}

/* Turns at concentrator p until it is idle or closed; what it sends goes into the queue, once its line is stored. */
static bool take_turns(struct session *x, uint64_t p)
{
    struct concentrator *c = &x->all[p - 1];
    uint8_t line[PACK_LINE_BYTES];
    while (!c->closed) {
        struct message *m = next_place(&x->queue);
        if (m == NULL)
            return false;
        pack_answer answer = pack_turn(c->state, PACK_STATE_WORDS, m->bytes, sizeof m->bytes, line, sizeof line);
        if (pack_refusal_of(answer) != PACK_ACCEPTED)
            return refused("turn", p, answer);
        if (pack_outcome_of(answer) == PACK_OUTCOME_IDLE)
            return true;
        if (!journal_add(&c->journal, line, PACK_TURN_LINE))
            return false;
        if (pack_outcome_of(answer) == PACK_OUTCOME_IN_FORCE)
            c->closed = true;
        if (pack_outcome_of(answer) != PACK_OUTCOME_SENT)
            continue;
        put(&x->queue, p, pack_length_of(answer), c->taken);
        if (!note_sent(x, p, m->bytes))
            return false;
    }
    return true;
}

/* Records what the box tells of a vote at concentrator p, once its line is stored, too. */
static bool record(struct session *x, uint64_t p, uint64_t vote, uint64_t bit)
{
    struct concentrator *c = &x->all[p - 1];
    uint8_t line[PACK_LINE_BYTES];
    uint64_t round = coins_round(&c->coins, vote);
    pack_answer answer = pack_record(c->state, PACK_STATE_WORDS, vote, round, bit, line, sizeof line);
    if (pack_refusal_of(answer) != PACK_ACCEPTED)
        return refused("recording", p, answer);
    coins_note_line(&c->coins, line);
    return journal_add(&c->journal, line, pack_length_of(answer));
}

/* Concentrator p asks again for the coins that it waits for, and records those that it is told. */
static bool record_coins(struct session *x, uint64_t p, bool *recorded)
{
    struct concentrator *c = &x->all[p - 1];
    bool told;
    uint64_t bit;
    for (uint64_t v = 0; !c->closed && (v = coins_waiting(&c->coins, v + 1)) != 0;) {
        if (!request(x, p, v, &told, &bit) || (told && !record(x, p, v, bit)))
            return false;
        *recorded = *recorded || told;
    }
    return true;
}

/*
 * All take their turns until idle, and then those that wait for coins record what the box tells them, as long as it tells
 * any. So what is done between the same deliveries does not depend on when a box is asked.
 */
static bool act(struct session *x)
{
    bool recorded = true;
    while (recorded) {
        recorded = false;
        for (uint64_t p = 1; p <= x->options.n; p++)
            if (!take_turns(x, p))
                return false;
        for (uint64_t p = 1; x->options.boxed && p <= x->options.n; p++)
            if (!record_coins(x, p, &recorded))
                return false;
    }
    sort(&x->queue);
    return true;
}

/* Delivers the next message of the queue to all n that have not taken it; a closed concentrator wants none. */
static bool deliver_next(struct session *x)
{
    const struct message *m = &x->queue.items[x->queue.next++];
    uint8_t line[PACK_LINE_BYTES];
    for (uint64_t p = 1; p <= x->options.n; p++) {
        struct concentrator *c = &x->all[p - 1];
        if (c->closed || c->taken >= x->queue.next)
            continue;
        pack_answer answer =
            pack_deliver(c->state, PACK_STATE_WORDS, m->sender, m->bytes, m->length, line, sizeof line);
        if (pack_refusal_of(answer) != PACK_ACCEPTED)
            return refused("delivery", p, answer);
        if (!journal_add(&c->journal, line, pack_length_of(answer)))
            return false;
        c->taken++;
    }
    return true;
}

static bool deliver_all(struct session *x)
{
    while (x->queue.next < x->queue.count)
        if (!deliver_next(x))
            return false;
    return true;
}

/* Whether the messages that were sent last were being delivered when the program was stopped. */
static bool among_deliveries(const struct session *x)
{
    size_t last = x->queue.count == 0 ? 0 : x->queue.items[x->queue.count - 1].taken;
    for (uint64_t p = 1; p <= x->options.n; p++)
        if (x->all[p - 1].taken > last)
            return true;
    return false;
}

/* Turns and deliveries until no message is left. */
static bool run(struct session *x)
{
    if (among_deliveries(x) && !deliver_all(x))
        return false;
    do {
        if (!act(x))
            return false;
        if (x->queue.next == x->queue.count)
            return true;
    } while (deliver_all(x));
    return false;
}

static bool print_report(const struct session *x, uint64_t p)
{
    const struct concentrator *c = &x->all[p - 1];
    uint64_t named[PACK_SET_WORDS], in_force[PACK_SET_WORDS];
    pack_answer answer = pack_report(c->state, PACK_STATE_WORDS, named, PACK_SET_WORDS, in_force, PACK_SET_WORDS);
    if (pack_refusal_of(answer) != PACK_ACCEPTED)
        return refused("report", p, answer);
    printf("%" PRIu64 "\t%u\t%d\t%" PRIu64 "\t", p, pack_exit_of(answer), c->closed, pack_turns_of(answer));
    size_t count = pack_in_force_of(answer);
    for (size_t i = 0; i < count; i++)
        printf("%s%016" PRIx64, i == 0 ? "" : ",", in_force[i]);
    fputs(count == 0 ? "-" : "", stdout);
    if (x->options.window_numbers != 0 && count != 0)
        printf("\t%" PRIu32, x->start);
    else if (x->options.window_numbers != 0)
        fputs("\t-", stdout);
    putchar('\n');
    return true;
}

int main(int argc, char **argv)
{
    static struct session x;
    if (argc == 2 && strcmp(argv[1], "--help") == 0) {
        fputs(usage, stdout);
        return 0;
    }
    bool done = read_options(argc, argv, &x.options) && ask_calendar(&x) && open_all(&x) && run(&x);
    for (uint64_t p = 1; done && p <= x.options.n; p++)
        done = print_report(&x, p);
    free(x.queue.items);
    for (size_t i = 0; i < PACK_CONCENTRATORS; i++)
        done = journal_close(&x.all[i].journal) && done;
    if (fflush(stdout) != 0)
        done = fail(strerror(errno), "output");
    return done ? 0 : 1;
}
