/*
 * The stack that each call takes at most, in a feeder of 16 of each version: the call runs on a painted stack of its own,
 * and the lowest byte that lost its paint is sought. What an empty call takes in the same place is subtracted.
 */
#define _XOPEN_SOURCE 700
#include <stdbool.h>
#include <stdio.h>
#include <string.h>
#include <ucontext.h>

#include "pack_agreement.h"

#define STACK 131072
#define PAINT 0xc5
#define N 16
#define MESSAGES 65536
#define JOURNAL (1 << 20)
#define LISTED 100
/* The longest line of a list that is taken, and its record: 16 fields of 64 quotes, which are doubled and stand in quotes. */
#define LISTED_LINE (16 * 65)
#define LISTED_RECORD (16 * 131 + 1)

enum call {
    CALL_NONE,
    CALL_OPEN,
    CALL_DELIVER,
    CALL_TURN,
    CALL_REPORT,
    CALL_RESTORE,
    CALL_RECORD,
    CALL_BOX_OPEN,
    CALL_BOX_REQUEST,
    CALL_START_MINUTE,
    CALL_CSV_TO_DRILL,
    CALL_DRILL_TO_CSV,
    CALLS
};

struct message {
    uint8_t bytes[PACK_MESSAGE_BYTES];
    size_t length;
};

static _Alignas(64) uint8_t stack[STACK];
static ucontext_t here, there;
static size_t most[CALLS];
static struct message sent[MESSAGES];
static size_t sent_count;
static uint64_t states[N][PACK_STATE_WORDS];
static uint32_t coins[N];
static uint8_t weights[N];

/* The call, its arguments and its answer: the painted stack holds none of them. */
static enum call call;
static uint64_t *state;
static pack_answer answer;
static enum pack_version version;
static uint64_t own, named[PACK_SET_WORDS], in_force[PACK_SET_WORDS];
static uint8_t bytes[PACK_MESSAGE_BYTES], line[PACK_LINE_BYTES];
static const struct message *delivered;
/* The journal of the first concentrator. */
static uint8_t journal[JOURNAL];
static size_t journal_bytes;
static uint64_t restored[PACK_STATE_WORDS];
/* A boxed session and its box; the vote and the round that are asked for. */
static uint64_t boxed[PACK_STATE_WORDS], coin_box[PACK_BOX_WORDS], vote, round_asked;
/* The calendar's windows, and its closing minute. */
static uint32_t windows[2 * PACK_WINDOWS_MAX];
static uint64_t closing;
/* A delivery list, as records and as lines. */
static uint8_t records[LISTED * LISTED_RECORD], lines[LISTED * LISTED_LINE];

static void run(void)
{
    switch (call) {
    case CALL_OPEN:
        answer = pack_open(state, PACK_STATE_WORDS, version, N, 5, 5, own, 7, own, coins, N, weights, N,
                           PACK_COINS_PRINTED, line, sizeof line);
        break;
    case CALL_DELIVER:
        answer = pack_deliver(state, PACK_STATE_WORDS, pack_message_sender(delivered->bytes), delivered->bytes,
                              delivered->length, line, sizeof line);
        break;
    case CALL_TURN:
        answer = pack_turn(state, PACK_STATE_WORDS, bytes, sizeof bytes, line, sizeof line);
        break;
    case CALL_REPORT:
        answer = pack_report(state, PACK_STATE_WORDS, named, PACK_SET_WORDS, in_force, PACK_SET_WORDS);
        break;
    case CALL_RESTORE:
        answer = pack_restore(restored, PACK_STATE_WORDS, journal, journal_bytes, bytes, sizeof bytes);
        break;
    case CALL_RECORD:
        answer = pack_record(boxed, PACK_STATE_WORDS, vote, round_asked, vote & 1, line, sizeof line);
        break;
    case CALL_BOX_OPEN:
        answer = pack_box_open(coin_box, PACK_BOX_WORDS, N, 5, 5, coins, N, weights, N);
        break;
    case CALL_BOX_REQUEST:
        answer = pack_box_request(coin_box, PACK_BOX_WORDS, own, vote, round_asked);
        break;
    case CALL_START_MINUTE:
        answer = pack_start_minute(windows, 2 * PACK_WINDOWS_MAX, closing, 0);
        break;
    case CALL_CSV_TO_DRILL:
        answer = pack_csv_to_drill(records, sizeof records, lines, sizeof lines);
        break;
    case CALL_DRILL_TO_CSV:
        answer = pack_drill_to_csv(lines, sizeof lines, records, sizeof records);
        break;
    default:
        break;
    }
}

/* Keeps the line that the last call at the first concentrator wrote. */
static void keep(size_t length)
{
    if (state != states[0] || length > JOURNAL - journal_bytes)
        return;
    memcpy(journal + journal_bytes, line, length);
    journal_bytes += length;
}

/* Makes the call on the painted stack, and keeps the most that its kind took. */
static void measure(enum call kind)
{
    size_t kept = 0;
    call = kind;
    memset(stack, PAINT, sizeof stack);
    getcontext(&there);
    there.uc_stack.ss_sp = stack;
    there.uc_stack.ss_size = sizeof stack;
    there.uc_link = &here;
    makecontext(&there, run, 0);
    swapcontext(&here, &there);
    while (kept < sizeof stack && stack[kept] == PAINT)
        kept++;
    if (most[kind] < sizeof stack - kept)
        most[kind] = sizeof stack - kept;
}

/* Turns until idle or closed, with a report after each. */
static void act(unsigned p)
{
    state = states[p];
    do {
        measure(CALL_TURN);
        pack_answer turn = answer;
        if (pack_refusal_of(turn) == PACK_ACCEPTED && pack_outcome_of(turn) != PACK_OUTCOME_IDLE)
            keep(PACK_TURN_LINE);
        if (pack_outcome_of(turn) == PACK_OUTCOME_SENT && sent_count < MESSAGES) {
            memcpy(sent[sent_count].bytes, bytes, sizeof bytes);
            sent[sent_count++].length = pack_length_of(turn);
        }
        measure(CALL_REPORT);
        answer = turn;
    } while (pack_refusal_of(answer) == PACK_ACCEPTED && pack_outcome_of(answer) != PACK_OUTCOME_IDLE);
}

/* A session of all N, with turns after each eighth delivery. Whether the journal gives the first one's state back. */
static bool measure_session(enum pack_version measured)
{
    version = measured;
    sent_count = journal_bytes = 0;
    for (unsigned p = 0; p < N; p++) {
        state = states[p];
        own = p + 1;
        measure(CALL_OPEN);
        keep(pack_length_of(answer));
    }
    for (unsigned p = 0; p < N; p++)
        act(p);
    for (size_t k = 0; k < sent_count; k++)
        for (unsigned p = 0; p < N; p++) {
            state = states[p];
            delivered = &sent[k];
            measure(CALL_DELIVER);
            bool accepted = pack_refusal_of(answer) == PACK_ACCEPTED;
            if (accepted)
                keep(pack_length_of(answer));
            if (accepted && k % 8 == 7)
                act(p);
        }
    for (unsigned p = 0; p < N; p++)
        act(p);
    measure(CALL_RESTORE);
    return pack_refusal_of(answer) == PACK_ACCEPTED && memcmp(restored, states[0], sizeof restored) == 0;
}

/* Opens a box, has all ask for all its coins, and records a bit for each of them. */
static bool measure_box(void)
{
    static const uint32_t none[N];
    bool good = true;
    measure(CALL_BOX_OPEN);
    good = good && pack_refusal_of(answer) == PACK_ACCEPTED;
    pack_answer opened =
        pack_open(boxed, PACK_STATE_WORDS, PACK_VERSION_2, N, 5, 5, 1, 7, 1, none, N, weights, N, PACK_COINS_BOXED, line,
                  sizeof line);
    good = good && pack_refusal_of(opened) == PACK_ACCEPTED;
    for (vote = 1; vote <= N; vote++)
        for (round_asked = 1; round_asked <= PACK_ROUNDS; round_asked++) {
            for (own = 1; own <= N; own++)
                measure(CALL_BOX_REQUEST);
            good = good && pack_told_of(answer);
            measure(CALL_RECORD);
            good = good && pack_refusal_of(answer) == PACK_ACCEPTED;
        }
    return good;
}

/* Asks a calendar of all its windows, of one minute each, from every minute of the week. */
static bool measure_calendar(void)
{
    bool good = true;
    for (unsigned k = 0; k < PACK_WINDOWS_MAX; k++) {
        windows[2 * k] = 600 * k;
        windows[2 * k + 1] = 600 * k + 1;
    }
    for (closing = 0; closing < PACK_WEEK_MINUTES; closing++) {
        measure(CALL_START_MINUTE);
        good = good && pack_refusal_of(answer) == PACK_ACCEPTED && pack_minute_of(answer) >= closing;
    }
    return good;
}

/* Turns a list of the longest lines to records and back, then refuses one for its last line. */
static bool measure_lists(void)
{
    bool good = true;
    memset(lines, '"', sizeof lines);
    for (size_t k = 64; k < sizeof lines; k += 65)
        lines[k] = k % LISTED_LINE == LISTED_LINE - 1 ? '\n' : '\t';
    measure(CALL_DRILL_TO_CSV);
    good = good && pack_refusal_of(answer) == PACK_ACCEPTED && pack_written_of(answer) == sizeof records;
    measure(CALL_CSV_TO_DRILL);
    good = good && pack_refusal_of(answer) == PACK_ACCEPTED && pack_written_of(answer) == sizeof lines;
    records[sizeof records - 1] = '\t';
    measure(CALL_CSV_TO_DRILL);
    good = good && pack_refusal_of(answer) == PACK_REFUSED_RECORD && pack_record_of(answer) == LISTED;
    lines[sizeof lines - 1] = '\r';
    measure(CALL_DRILL_TO_CSV);
    return good && pack_refusal_of(answer) == PACK_REFUSED_RECORD && pack_record_of(answer) == LISTED;
}

/* Says what is wrong, and gives the status. */
static int wrong(const char *what)
{
    fprintf(stderr, "stack: %s\n", what);
    return 1;
}

int main(void)
{
    static const char *names[CALLS] = {"",
                                       "pack_open",
                                       "pack_deliver",
                                       "pack_turn",
                                       "pack_report",
                                       "pack_restore",
                                       "pack_record",
                                       "pack_box_open",
                                       "pack_box_request",
                                       "pack_start_minute",
                                       "pack_csv_to_drill",
                                       "pack_drill_to_csv"};
    measure(CALL_NONE);
    for (unsigned p = 0; p < N; p++) {
        coins[p] = 0xb5a39d71u << p % 7;
        weights[p] = 1;
    }
    if (!measure_session(PACK_VERSION_1) || !measure_session(PACK_VERSION_2))
        return wrong("the journal does not give the state back");
    if (!measure_box())
        return wrong("a coin is not told, or not recorded");
    if (!measure_calendar())
        return wrong("the calendar names no minute");
    if (!measure_lists())
        return wrong("a list is not turned, or not refused");
    printf("| call | stack, bytes |\n|---|---|\n");
    for (unsigned kind = CALL_OPEN; kind < CALLS; kind++)
        printf("| `%s` | %zu |\n", names[kind], most[kind] - most[CALL_NONE]);
    return 0;
}
