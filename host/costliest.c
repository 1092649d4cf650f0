/*
 * Runs the costliest session of n concentrators at one of them, through the engine's C functions, and prints what it
 * took: turns, and messages and bytes sent by kind. The settings and calls come from pack_costliest.h, which hands out
 * those of the proved definition.
 */
#include <errno.h>
#include <inttypes.h>
#include <stdbool.h>
#include <stdio.h>
#include <stdlib.h>
#include <string.h>

#include "pack_agreement.h"
#include "pack_costliest.h"

/* The kinds of version 1. */
enum { KINDS = PACK_KIND_COMMIT, OUTCOMES = PACK_OUTCOME_IN_FORCE - PACK_OUTCOME_IDLE + 1 };

static const char *const kind_names[KINDS] = {"SEND", "ECHO", "READY", "EST", "AUX", "COMMIT"};

static const char *const usage =
    "usage: costliest N [FILE]\n"
    "\n"
    "Runs the costliest session of N concentrators, 1 to 16, at one of them and prints, fields parted by tabs: its\n"
    "calls, its turns by what they did, and the messages and bytes that it sent by kind. The version is 1, all weights are\n"
    "1, and the coins are printed.\n"
    "\n"
    "  FILE  takes the session: its opening and its calls, one to a line, fields parted by tabs, the answer last.\n"
    "          O version n ta ts own session input coins refusal  input and coins in hexadecimal, coins parted by commas\n"
    "          D link message refusal                             the message in hexadecimal\n"
    "          T bytes-lent refusal outcome message               outcome 1 sent, 2 moved out of round 32, 3 in force\n"
    "\n"
    "The status is 0, or 1 on an error.\n";

struct session {
    uint64_t n;
    uint64_t state[PACK_STATE_WORDS];
    /* Where the calls are written, or NULL. */
    FILE *calls;
    uint64_t deliveries;
    /* Turns by their outcome, the idle ones first. */
    uint64_t outcomes[OUTCOMES];
    uint64_t messages[KINDS], bytes[KINDS];
};

static bool fail(const char *what, const char *about)
{
    fprintf(stderr, "costliest: %s: %s\n", about, what);
    return false;
}

/* A call that the engine does not take as the costliest session has it. */
static bool unexpected(uint64_t k, const char *call, pack_answer answer)
{
    fprintf(stderr, "costliest: call %" PRIu64 ": %s answered %#" PRIx64 "\n", k, call, answer.number);
    return false;
}

static void print_bytes(FILE *out, const uint8_t *bytes, size_t length)
{
    for (size_t i = 0; i < length; i++)
        fprintf(out, "%02x", bytes[i]);
}

static void write_opening(FILE *out, const uint64_t *settings, const uint32_t *coins, uint64_t n, pack_answer answer)
{
    fprintf(out, "O\t%d\t%" PRIu64 "\t%" PRIu64 "\t%" PRIu64 "\t%" PRIu64 "\t%" PRIu64 "\t%016" PRIx64 "\t",
            PACK_VERSION_1, settings[0], settings[1], settings[2], settings[3], settings[4], settings[5]);
    for (uint64_t i = 0; i < n; i++)
        fprintf(out, "%s%08" PRIx32, i == 0 ? "" : ",", coins[i]);
    fprintf(out, "\t%u\n", pack_refusal_of(answer));
}

static bool open_session(struct session *s)
{
    enum { SETTINGS = 6 };
    uint64_t settings[SETTINGS];
    uint32_t coins[PACK_CONCENTRATORS];
    uint8_t weights[PACK_CONCENTRATORS];
    memset(weights, 1, sizeof weights);
    for (uint64_t k = 0; k < SETTINGS; k++)
        settings[k] = pack_costliest_setting(s->n, k + 1);
    for (uint64_t i = 0; i < s->n; i++)
        coins[i] = (uint32_t)pack_costliest_setting(s->n, SETTINGS + i + 1);
    /* Opening sets all words, whatever they hold. */
    memset(s->state, 0xa5, sizeof s->state);
    uint8_t line[PACK_LINE_BYTES];
    pack_answer answer =
        pack_open(s->state, PACK_STATE_WORDS, PACK_VERSION_1, settings[0], settings[1], settings[2], settings[3],
                  (uint32_t)settings[4], settings[5], coins, s->n, weights, s->n, PACK_COINS_PRINTED, line, sizeof line);
    if (s->calls)
        write_opening(s->calls, settings, coins, s->n, answer);
    return pack_refusal_of(answer) == PACK_ACCEPTED || unexpected(0, "opening", answer);
}

static bool deliver(struct session *s, uint64_t k, pack_answer call, const uint8_t *message)
{
    uint64_t link = pack_costliest_link_of(call);
    size_t length = pack_costliest_length_of(call);
    uint8_t line[PACK_LINE_BYTES];
    pack_answer answer = pack_deliver(s->state, PACK_STATE_WORDS, link, message, length, line, sizeof line);
    s->deliveries++;
    if (s->calls) {
        fprintf(s->calls, "D\t%" PRIu64 "\t", link);
        print_bytes(s->calls, message, length);
        fprintf(s->calls, "\t%u\n", pack_refusal_of(answer));
    }
    return pack_refusal_of(answer) == PACK_ACCEPTED || unexpected(k, "delivery", answer);
}

/* Counts a message that was sent. */
static bool count_message(struct session *s, pack_answer answer, uint64_t k, const uint8_t *message)
{
    enum pack_kind kind = pack_message_kind(message);
    if (kind < PACK_KIND_SEND || kind > PACK_KIND_COMMIT)
        return unexpected(k, "turn that sent no known kind", answer);
    s->messages[kind - PACK_KIND_SEND]++;
    s->bytes[kind - PACK_KIND_SEND] += pack_length_of(answer);
    return true;
}

static bool take_turn(struct session *s, uint64_t k, pack_answer call)
{
    uint8_t message[PACK_MESSAGE_BYTES], line[PACK_LINE_BYTES];
    size_t lent = pack_costliest_length_of(call);
    if (lent > sizeof message)
        return unexpected(k, "the session, for a turn lent too much,", call);
    pack_answer answer = pack_turn(s->state, PACK_STATE_WORDS, message, lent, line, sizeof line);
    enum pack_outcome outcome = pack_outcome_of(answer);
    unsigned number = outcome - PACK_OUTCOME_IDLE;
    size_t length = pack_length_of(answer);
    if (s->calls) {
        fprintf(s->calls, "T\t%zu\t%u\t%u\t", lent, pack_refusal_of(answer), number);
        print_bytes(s->calls, message, length);
        fprintf(s->calls, length == 0 ? "-\n" : "\n");
    }
    if (pack_refusal_of(answer) != PACK_ACCEPTED || outcome == PACK_OUTCOME_IDLE || number >= OUTCOMES)
        return unexpected(k, "turn", answer);
    s->outcomes[number]++;
    return outcome != PACK_OUTCOME_SENT || count_message(s, answer, k, message);
}

/* The calls one after another, to the last. */
static bool run_calls(struct session *s)
{
    for (uint64_t k = 1;; k++) {
        uint8_t message[PACK_MESSAGE_BYTES];
        pack_answer call = pack_costliest_call(s->n, k, message, sizeof message);
        if (pack_refusal_of(call) != PACK_ACCEPTED)
            return unexpected(k, "the session", call);
        switch (pack_costliest_kind_of(call)) {
        case PACK_COSTLIEST_NONE:
            return true;
        case PACK_COSTLIEST_DELIVERY:
            if (!deliver(s, k, call, message))
                return false;
            break;
        default:
            if (!take_turn(s, k, call))
                return false;
        }
    }
}

/* The count that the engine itself reports. */
static bool reported_turns(const struct session *s, uint64_t *turns)
{
    uint64_t named[PACK_SET_WORDS], in_force[PACK_SET_WORDS];
    pack_answer answer = pack_report(s->state, PACK_STATE_WORDS, named, PACK_SET_WORDS, in_force, PACK_SET_WORDS);
    *turns = pack_turns_of(answer);
    return pack_refusal_of(answer) == PACK_ACCEPTED || unexpected(0, "report", answer);
}

static bool print_summary(const struct session *s)
{
    uint64_t turns, messages = 0, bytes = 0;
    if (!reported_turns(s, &turns))
        return false;
    printf("concentrators\t%" PRIu64 "\n", s->n);
    printf("deliveries\t%" PRIu64 "\n", s->deliveries);
    printf("turns\t%" PRIu64 "\n", turns);
    for (unsigned i = 1; i < OUTCOMES; i++)
        printf("%s\t%" PRIu64 "\n", pack_outcome_name((enum pack_outcome)(PACK_OUTCOME_IDLE + i)), s->outcomes[i]);
    printf("kind\tmessages\tbytes\n");
    for (unsigned i = 0; i < KINDS; i++) {
        printf("%s\t%" PRIu64 "\t%" PRIu64 "\n", kind_names[i], s->messages[i], s->bytes[i]);
        messages += s->messages[i];
        bytes += s->bytes[i];
    }
    printf("all\t%" PRIu64 "\t%" PRIu64 "\n", messages, bytes);
    return fflush(stdout) == 0 || fail(strerror(errno), "standard output");
}

/* A number from 1 to 16 in decimal digits. */
static bool read_n(const char *text, uint64_t *n)
{
    if (text[0] == '\0' || strlen(text) > 2 || text[strspn(text, "0123456789")] != '\0')
        return fail("not a number from 1 to 16", text);
    *n = strtoull(text, NULL, 10);
    return (*n >= 1 && *n <= PACK_CONCENTRATORS) || fail("not a number from 1 to 16", text);
}

/* Runs the session, its calls written to the file of that name where one is given. */
static bool run(struct session *s, const char *name)
{
    if (name && !(s->calls = fopen(name, "w")))
        return fail(strerror(errno), name);
    bool good = open_session(s) && run_calls(s);
    if (s->calls) {
        bool written = !ferror(s->calls);
        if (fclose(s->calls) != 0 || !written)
            good = fail("cannot be written", name);
    }
    return good;
}

int main(int argc, char **argv)
{
    static struct session s;
    if (argc == 2 && strcmp(argv[1], "--help") == 0) {
        fputs(usage, stdout);
        return 0;
    }
    if (argc != 2 && argc != 3) {
        fputs(usage, stderr);
        return 1;
    }
    return read_n(argv[1], &s.n) && run(&s, argc == 3 ? argv[2] : NULL) && print_summary(&s) ? 0 : 1;
}
