/*
 * Restores under libFuzzer: the input is a journal. Restored onto two buffers that hold different words it gives the same;
 * a refusal leaves everything and names a line; what was restored goes on as a session, and its next lines follow the
 * journal. The archive is not instrumented, so what the fuzzer follows are the answers and the lines reached.
 */
#include "counters.h"
#include "lent.h"
#include "pack_agreement.h"

#define STATE_BYTES (PACK_STATE_WORDS * sizeof(uint64_t))
/* Room for lines of further calls behind the input. */
#define JOURNAL_MOST (LENT_ROOM - LENT_GUARD - PACK_LINE_BYTES)

static struct lent first_lent, second_lent, journal_lent, message_lent, other_lent;

/* Restores the bytes onto a buffer that was filled so. What every restore owes is checked. */
static pack_answer restore(struct lent *state, const uint8_t *bytes, size_t length, uint8_t fill, struct lent *message)
{
    uint64_t *words = lend_filled(state, STATE_BYTES, fill);
    uint8_t *lent = lend_filled(message, PACK_MESSAGE_BYTES, 0xa5);
    memcpy(journal_lent.end - length, bytes, length);
    const uint8_t *journal = lend(&journal_lent, length);
    pack_answer answer =
        pack_restore(words, PACK_STATE_WORDS, length == 0 ? NULL : journal, length, lent, PACK_MESSAGE_BYTES);
    bool accepted = pack_refusal_of(answer) == PACK_ACCEPTED;
    size_t sent = accepted ? pack_length_of(answer) : 0;
    require(accepted || pack_refusal_of(answer) == PACK_REFUSED_JOURNAL, "a refusal that no restore gives");
    require(lent_kept(&journal_lent, 0), "a restore changed the journal");
    require(lent_kept(state, accepted ? STATE_BYTES : 0), "a refusal changed the state");
    require(lent_kept(message, sent), "a restore wrote other bytes");
    require(!accepted || pack_outcome_of(answer) == (sent != 0 ? PACK_OUTCOME_SENT : PACK_OUTCOME_IDLE),
            "a message without a length, or a length without one");
    calls_made++;
    calls_accepted += accepted;
    return answer;
}

/* The number of complete lines, and the bytes that they take. */
static size_t count_lines(const uint8_t *bytes, size_t length, size_t *complete)
{
    size_t lines = 0;
    *complete = 0;
    for (size_t k = 0; k < length; k++)
        if (bytes[k] == '\n') {
            lines++;
            *complete = k + 1;
        }
    return lines;
}

/* Where so many lines end. */
static size_t end_of(const uint8_t *bytes, uint64_t lines)
{
    size_t end = 0;
    for (; lines > 0; end++)
        lines -= bytes[end] == '\n';
    return end;
}

static bool same_words(void) { return memcmp(lent_start(&first_lent), lent_start(&second_lent), STATE_BYTES) == 0; }

/* A refused journal: the lines before the one that is named are taken, where there are any. */
static void check_refused(const uint8_t *bytes, pack_answer answer, size_t lines)
{
    uint64_t line = pack_line_of(answer);
    require(line >= 1 && (line <= lines || (lines == 0 && line == 1)), "a line that is not there");
    note(1, (unsigned)line);
    if (line > 1) {
        pack_answer before = restore(&first_lent, bytes, end_of(bytes, line - 1), 0, &message_lent);
        require(pack_refusal_of(before) == PACK_ACCEPTED, "the lines before the one that is named are refused");
    }
}

/* The calls that lend too little, or not a state, leave everything. */
static void check_short(const uint8_t *bytes, size_t length)
{
    uint64_t *words = lend_filled(&second_lent, STATE_BYTES, 0x3c);
    uint8_t *message = lend_filled(&message_lent, PACK_MESSAGE_BYTES, 0xa5);
    memcpy(journal_lent.end - length, bytes, length);
    const uint8_t *journal = lend(&journal_lent, length);
    require(pack_restore(words + 1, PACK_STATE_WORDS - 1, journal, length, message + 1, 139).number ==
                PACK_REFUSED_NO_STATE,
            "2047 words");
    require(pack_restore(words, PACK_STATE_WORDS, journal, length, message + 1, 139).number == PACK_REFUSED_SHORT,
            "139 bytes");
    require(lent_kept(&second_lent, 0) && lent_kept(&message_lent, 0), "a refusal changed something");
}

/* One more turn at the first state: its line behind the journal gives the same words and message. */
static bool turn_on(uint8_t *bytes, size_t *length)
{
    uint8_t message[PACK_MESSAGE_BYTES], line[PACK_LINE_BYTES];
    uint64_t *words = (uint64_t *)(void *)lent_start(&first_lent);
    pack_answer answer = pack_turn(words, PACK_STATE_WORDS, message, sizeof message, line, sizeof line);
    enum pack_refusal refusal = pack_refusal_of(answer);
    require(refusal == PACK_ACCEPTED || refusal == PACK_REFUSED_CLOSED, "a turn on what was restored");
    memcpy(bytes + *length, "T\n", PACK_TURN_LINE);
    pack_answer restored = restore(&second_lent, bytes, *length + PACK_TURN_LINE, 0x77, &other_lent);
    if (refusal != PACK_ACCEPTED || pack_outcome_of(answer) == PACK_OUTCOME_IDLE) {
        require(pack_refusal_of(restored) == PACK_REFUSED_JOURNAL, "a turn that did nothing is taken from the journal");
        return false;
    }
    size_t sent = pack_length_of(answer);
    *length += PACK_TURN_LINE;
    require(pack_refusal_of(restored) == PACK_ACCEPTED && same_words(), "the next line gives other words");
    require(pack_complete_of(restored) == *length && pack_length_of(restored) == sent, "the answer to the next line");
    require(memcmp(message, lent_start(&other_lent), sent) == 0, "the next line gives another message");
    note(2, sent == 0 ? pack_outcome_of(answer) : pack_message_kind(message) * 64u + pack_message_round(message));
    return true;
}

/*
 * A recording at the first state: its line behind the journal gives the same words. Which bits are taken depends on those
 * that are there, and in a printed session none is.
 */
static void record_on(uint8_t *bytes, size_t *length, uint64_t vote, uint64_t round, uint64_t bit)
{
    uint8_t line[PACK_LINE_BYTES];
    uint64_t *words = (uint64_t *)(void *)lent_start(&first_lent);
    pack_answer answer = pack_record(words, PACK_STATE_WORDS, vote, round, bit, line, sizeof line);
    enum pack_refusal refusal = pack_refusal_of(answer);
    require(refusal == PACK_ACCEPTED || refusal == PACK_REFUSED_COIN || refusal == PACK_REFUSED_CLOSED,
            "a recording on what was restored");
    note(3, refusal);
    if (refusal == PACK_ACCEPTED) {
        memcpy(bytes + *length, line, pack_length_of(answer));
        *length += pack_length_of(answer);
        pack_answer restored = restore(&second_lent, bytes, *length, 0x55, &other_lent);
        require(restored.number == (uint64_t)*length << 32 && same_words(),
                "the line of a recording gives other words");
        require(pack_record(words, PACK_STATE_WORDS, vote, round, 1 - bit, line, sizeof line).number ==
                    PACK_REFUSED_COIN,
                "the other bit");
    }
}

static void check_report(void)
{
    uint64_t named[PACK_SET_WORDS], in_force[PACK_SET_WORDS], *words = (uint64_t *)(void *)lent_start(&first_lent);
    pack_answer answer = pack_report(words, PACK_STATE_WORDS, named, PACK_SET_WORDS, in_force, PACK_SET_WORDS);
    require(pack_refusal_of(answer) == PACK_ACCEPTED, "a report on what was restored");
    note(3, pack_exit_of(answer) * 256 + (unsigned)pack_turns_of(answer) % 256);
}

int LLVMFuzzerInitialize(int *count, char ***arguments)
{
    (void)count, (void)arguments;
    lent_make(&first_lent);
    lent_make(&second_lent);
    lent_make(&journal_lent);
    lent_make(&message_lent);
    lent_make(&other_lent);
    return 0;
}

int LLVMFuzzerTestOneInput(const uint8_t *data, size_t size)
{
    static uint8_t bytes[JOURNAL_MOST + PACK_LINE_BYTES];
    size_t complete, length = size < JOURNAL_MOST ? size : JOURNAL_MOST;
    memcpy(bytes, data, length);
    size_t lines = count_lines(bytes, length, &complete);
    pack_answer answer = restore(&first_lent, bytes, length, 0, &message_lent);
    require(restore(&second_lent, bytes, length, 0xff, &other_lent).number == answer.number,
            "two buffers, two answers");
    if (pack_refusal_of(answer) != PACK_ACCEPTED) {
        check_refused(bytes, answer, lines);
        check_short(bytes, length);
        return 0;
    }
    require(same_words(), "two buffers, two states");
    require(memcmp(lent_start(&message_lent), lent_start(&other_lent), PACK_MESSAGE_BYTES) == 0, "two messages");
    require(pack_complete_of(answer) == complete && lines > 0, "the bytes of the complete lines");
    note(0, (unsigned)lines);
    require(restore(&second_lent, bytes, complete, 0x11, &other_lent).number == answer.number && same_words(),
            "a torn line counts");
    check_report();
    length = complete;
    for (unsigned turns = 0; turns < 4 && turn_on(bytes, &length); turns++) {
    }
    record_on(bytes, &length, 1, 1, lines & 1);
    record_on(bytes, &length, 1 + lines % PACK_CONCENTRATORS, 1 + lines % PACK_ROUNDS, lines >> 1 & 1);
    turn_on(bytes, &length);
    check_short(bytes, length);
    return 0;
}
