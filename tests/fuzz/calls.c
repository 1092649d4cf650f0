/*
 * Opening, delivery, turn, report, recording, the coin box, the calendar and the conversions of delivery lists under
 * libFuzzer: the input bytes open a feeder of up to four concentrators and make a list of calls, with messages as sent,
 * forged, damaged or of any bytes, with bits from a box or any others, with planted words, with any windows and any texts.
 * Then the journal of each state without planted words must give it back.
 * The archive is not instrumented, so what the fuzzer follows are the answers (see `note`).
 */
#include "box.h"
#include "calendar.h"
#include "conversions.h"
#include "counters.h"
#include "forged.h"
#include "input.h"
#include "kept.h"
#include "lent.h"
#include "opening.h"
#include "pack_agreement.h"

#define STATES 4
#define SENT 4096
#define STATE_BYTES (PACK_STATE_WORDS * sizeof(uint64_t))
/* The word of a state that has its version. */
#define VERSION_WORD 143

struct message {
    uint8_t bytes[PACK_MESSAGE_BYTES];
    size_t length;
    /* The next of the states that it goes to. */
    unsigned next;
};

static struct lent state[STATES], weights_lent, bytes_lent, line_lent, named_lent, in_force_lent;
static struct kept kept[STATES];
static struct message sent[SENT];
static size_t sent_count;
/* Words were planted, or a state was opened again: what one state sends may then be refused by another. */
static bool irregular;

static uint64_t *words_of(unsigned p) { return (uint64_t *)(void *)lent_start(&state[p]); }

/* Lends state p; mostly all its words, else fewer of them, or one more before them. */
static size_t lend_state(unsigned p, uint8_t choice)
{
    static const size_t counts[4] = {0, 1, PACK_STATE_WORDS - 1, PACK_STATE_WORDS + 1};
    lend(&state[p], STATE_BYTES);
    return choice < 0xf8 ? PACK_STATE_WORDS : counts[choice & 3];
}

/* Lends bytes for a line; mostly just enough of them. */
static uint8_t *lend_line(uint8_t choice)
{
    static const size_t counts[8] = {0, 1, 511, 513, 2, 600, 511, 1024};
    return lend_filled(&line_lent, (choice & 0xf0) != 0xe0 ? PACK_LINE_BYTES : counts[choice & 7], 0xa5);
}

/* The line of an accepted opening, delivery or recording. */
static void take_line(unsigned p, pack_answer answer, char letter)
{
    size_t length = pack_length_of(answer);
    require(answer.number == (uint64_t)length << 16 && line_lent.size >= PACK_LINE_BYTES,
            "the answer of a call with a line");
    require(lent_kept(&line_lent, length) && lent_start(&line_lent)[0] == letter, "the line of a call");
    keep(&kept[p], lent_start(&line_lent), length, NULL, 0);
}

/* Where so many words of state p start. */
static uint64_t *words_from(unsigned p, size_t words) { return words_of(p) - (words > PACK_STATE_WORDS ? 1 : 0); }

/* What every call owes: a refusal has no other bits and changes nothing, and a state of another length is refused so. */
static bool accepted(unsigned p, size_t words, pack_answer answer)
{
    enum pack_refusal refusal = pack_refusal_of(answer);
    require(refusal <= PACK_REFUSED_HELD || refusal == PACK_REFUSED_COIN, "a refusal that is not in the list");
    require(words == PACK_STATE_WORDS || refusal == PACK_REFUSED_NO_STATE, "a state of another length is taken");
    require(refusal == PACK_ACCEPTED || answer.number == refusal, "a refusal with other bits");
    require(lent_kept(&state[p], refusal == PACK_ACCEPTED ? STATE_BYTES : 0), "a refusal changed the state");
    calls_made++;
    calls_accepted += refusal == PACK_ACCEPTED;
    return refusal == PACK_ACCEPTED;
}

static void open_state(const struct opening *opening, unsigned p, uint64_t own, uint8_t choice)
{
    size_t words = lend_state(p, choice);
    uint32_t before[PACK_CONCENTRATORS + 1];
    memcpy(before, opening->coins, sizeof before);
    size_t count = opening->weight_count;
    memcpy(weights_lent.end - count, opening->weights, count);
    const uint8_t *weights = lend(&weights_lent, count);
    uint8_t *line = lend_line(choice);
    pack_answer answer =
        pack_open(words_from(p, words), words, opening->version, opening->n, opening->ta, opening->ts, own,
                  opening->session, opening->input + p % 3 * (opening->input & 1), opening->coins, opening->coin_words,
                  count == 0 ? NULL : weights, count, opening->boxed, line, line_lent.size);
    require(memcmp(before, opening->coins, sizeof before) == 0, "an opening changed the coins");
    require(lent_kept(&weights_lent, 0), "an opening changed the weights");
    if (accepted(p, words, answer))
        take_line(p, answer, 'O');
    else
        require(lent_kept(&line_lent, 0), "a refused opening wrote a line");
    note(0, pack_refusal_of(answer));
}

/* A bit recorded at state p. In an open boxed session one of the layout is taken, unless the other bit is there. */
static enum pack_refusal record(unsigned p, uint64_t vote, uint64_t round, uint64_t bit, uint8_t choice)
{
    size_t words = lend_state(p, choice);
    uint8_t *line = lend_line(choice);
    pack_answer answer =
        pack_record(words_from(p, words), words, vote, round, bit, line_lent.size == 0 ? NULL : line, line_lent.size);
    if (accepted(p, words, answer)) {
        require(vote >= 1 && vote <= words_of(p)[0] && round >= 1 && round <= PACK_ROUNDS && bit <= 1, "a coin is taken");
        take_line(p, answer, 'K');
    } else
        require(lent_kept(&line_lent, 0), "a refused recording wrote a line");
    note(5, pack_refusal_of(answer));
    return pack_refusal_of(answer);
}

/* Any bit; where it is taken, again it is taken too, and the other one is not. */
static void record_any(struct input *in, unsigned p)
{
    uint64_t vote = take_number(in), round = take_number(in), bit = take_number(in);
    if (record(p, vote, round, bit, take(in)) == PACK_ACCEPTED) {
        require(record(p, vote, round, 1 - bit, 0) == PACK_REFUSED_COIN, "two bits for one coin");
        require(irregular || record(p, vote, round, bit, 0) == PACK_ACCEPTED, "a repeat is refused");
    }
}

/* All states ask the box for the coins of some rounds, and record what they are told. */
static void record_told(const struct opening *opening, uint64_t rounds)
{
    for (uint64_t vote = 1; vote <= opening->n && vote <= PACK_CONCENTRATORS; vote++)
        for (uint64_t round = 1; round <= rounds; round++)
            for (unsigned p = 0; p < STATES; p++) {
                pack_answer told = box_request(p + 1, vote, round);
                if (pack_told_of(told))
                    record(p, vote, round, pack_bit_of(told), 0);
            }
}

/* Answers the refusal. */
static enum pack_refusal deliver_once(unsigned p, uint64_t link, size_t length, uint8_t choice)
{
    size_t words = lend_state(p, choice);
    uint8_t *message = lend(&bytes_lent, length);
    uint8_t *line = lend_line(choice);
    pack_answer answer = pack_deliver(words_from(p, words), words, link, length == 0 ? NULL : message, length,
                                      line_lent.size == 0 ? NULL : line, line_lent.size);
    require(lent_kept(&bytes_lent, 0), "a delivery changed the message");
    if (accepted(p, words, answer))
        take_line(p, answer, 'D');
    else
        require(lent_kept(&line_lent, 0), "a refused delivery wrote a line");
    return pack_refusal_of(answer);
}

/* Delivers the bytes; where they are taken, the same delivery again is held. */
static enum pack_refusal deliver(unsigned p, uint64_t link, const uint8_t *message, size_t length, uint8_t choice)
{
    memcpy(bytes_lent.end - length, message, length);
    enum pack_refusal refusal = deliver_once(p, link, length, choice);
    if (refusal == PACK_ACCEPTED)
        require(deliver_once(p, link, length, 0) == PACK_REFUSED_HELD, "a second delivery is not held");
    note(1, refusal * 8 + (length > PACK_BYTE_KIND ? message[PACK_BYTE_KIND] & 7 : 0));
    return refusal;
}

static void check_sent(unsigned p, const uint8_t *message, size_t length)
{
    const uint64_t *words = words_of(p);
    size_t count = pack_message_count(message);
    enum pack_kind kind = pack_message_kind(message);
    require(length == PACK_HEADER_BYTES + PACK_VALUE_BYTES * count && count >= 1,
            "the length of a message that is sent");
    enum pack_kind last = words[VERSION_WORD] == PACK_VERSION_2 ? PACK_KIND_FINISH : PACK_KIND_COMMIT;
    require(message[PACK_BYTE_VERSION] == words[VERSION_WORD], "the version of a message that is sent");
    require(kind >= PACK_KIND_SEND && kind <= last, "the kind of a message that is sent");
    require(pack_message_sender(message) == words[3], "the sender of a message that is sent");
    if (sent_count < SENT) {
        memcpy(sent[sent_count].bytes, message, length);
        sent[sent_count].length = length;
        sent[sent_count++].next = 0;
    }
    note(2, kind * 64u + (kind == PACK_KIND_COMMIT ? (unsigned)count : pack_message_round(message)));
}

/* One turn; answers whether it was accepted and not idle. */
static bool turn(unsigned p, size_t capacity, uint8_t choice)
{
    size_t words = lend_state(p, choice);
    uint8_t *message = lend_filled(&bytes_lent, capacity, 0xa5);
    uint8_t *line = lend_line(choice);
    pack_answer answer =
        pack_turn(words_from(p, words), words, capacity == 0 ? NULL : message, capacity, line, line_lent.size);
    enum pack_outcome outcome = pack_outcome_of(answer);
    size_t length = pack_length_of(answer);
    note(3, (unsigned)(answer.number & 0xffff) % 512);
    bool acted = answer.number >> 8 != 0;
    require(lent_kept(&bytes_lent, length) && lent_kept(&line_lent, acted ? PACK_TURN_LINE : 0), "a turn wrote other bytes");
    if (!accepted(p, words, answer))
        return false;
    require(outcome <= PACK_OUTCOME_IN_FORCE && answer.number >> 32 == 0, "a turn's answer");
    require((outcome == PACK_OUTCOME_SENT) == (length != 0), "a length with no message");
    require(capacity >= PACK_MESSAGE_BYTES && line_lent.size >= PACK_LINE_BYTES, "a turn lent too little");
    require(outcome != PACK_OUTCOME_IDLE || lent_kept(&state[p], 0), "an idle turn changed the state");
    if (acted)
        keep(&kept[p], line, PACK_TURN_LINE, message, length);
    if (outcome == PACK_OUTCOME_SENT)
        check_sent(p, message, length);
    return outcome != PACK_OUTCOME_IDLE;
}

static bool rising(const uint64_t *values, size_t count)
{
    for (size_t k = 1; k < count; k++)
        if (values[k - 1] >= values[k])
            return false;
    return true;
}

static void report(unsigned p, size_t named_words, size_t in_force_words, uint8_t choice)
{
    size_t words = lend_state(p, choice);
    uint64_t *named = lend_filled(&named_lent, 8 * named_words, 0xa5);
    uint64_t *in_force = lend_filled(&in_force_lent, 8 * in_force_words, 0xa5);
    pack_answer answer = pack_report(words_from(p, words), words, named, named_words, in_force, in_force_words);
    size_t named_count = pack_named_of(answer), in_force_count = pack_in_force_of(answer);
    bool given = accepted(p, words, answer);
    require(lent_kept(&state[p], 0), "a report changed the state");
    require(lent_kept(&named_lent, 8 * named_count), "a report wrote other words named");
    require(lent_kept(&in_force_lent, 8 * in_force_count), "a report wrote other words in force");
    note(4, given ? 16 + pack_exit_of(answer) * 32 + (unsigned)named_count : (unsigned)answer.number);
    if (!given)
        return;
    require(named_words >= PACK_SET_WORDS && in_force_words >= PACK_SET_WORDS, "a report lent too little");
    require(pack_exit_of(answer) <= 3 && (pack_exit_of(answer) == 0) == (named_count == 0), "a report's exit");
    require(rising(named, named_count), "the named set does not rise");
    require(irregular || rising(in_force, in_force_count), "the set in force does not rise");
    require(pack_turns_of(answer) <= (98 + words_of(p)[VERSION_WORD]) * words_of(p)[0] + 3, "more turns than there can be");
}

/* All states turn until idle, and what they send goes to all of them, as long as messages are left. */
static void run_feeder(uint64_t order)
{
    for (unsigned sweep = 0; sweep < 64; sweep++) {
        bool left = false;
        for (unsigned p = 0; p < STATES; p++)
            for (unsigned turns = 0; turns < 64 && turn(p, PACK_MESSAGE_BYTES, 0); turns++)
                left = true;
        for (size_t k = 0; k < sent_count; k++)
            for (; sent[k].next < STATES; sent[k].next++, left = true) {
                uint64_t link = pack_message_sender(sent[k].bytes);
                enum pack_refusal refusal =
                    deliver((sent[k].next + order) % STATES, link, sent[k].bytes, sent[k].length, 0);
                require(irregular || (refusal != PACK_REFUSED_VALUE && refusal != PACK_REFUSED_FIELD &&
                                      refusal != PACK_REFUSED_KIND),
                        "a message that was sent is refused by its form");
            }
        if (!left)
            return;
    }
}

/* A forged message to one state, or to all; at times with a byte changed. */
static void forge(struct input *in, uint8_t code, const struct opening *opening)
{
    uint8_t message[PACK_MESSAGE_BYTES], p = take(in);
    size_t length = forge_message(in, message, opening);
    uint64_t link = pack_message_sender(message);
    if (code & 0x80)
        message[take(in) % length] = take(in);
    if (code & 0x40)
        link = take_number(in);
    for (unsigned k = 0; k < STATES; k++)
        if (p >> k & 1)
            deliver(k, link, message, length, code & 0x20 ? take(in) : 0);
}

/* The last messages that were sent, as if all of 1 to 16 had sent them too. */
static void copy_from_all(struct input *in)
{
    size_t back = take(in);
    for (size_t k = sent_count > back ? sent_count - back : 0; k < sent_count; k++)
        for (uint8_t sender = 1; sender <= PACK_CONCENTRATORS; sender++) {
            struct message copy = sent[k];
            copy.bytes[PACK_BYTE_SENDER] = sender;
            if (pack_message_kind(copy.bytes) == PACK_KIND_SEND)
                copy.bytes[PACK_BYTE_INSTANCE] = sender;
            deliver(0, sender, copy.bytes, copy.length, 0);
        }
}

static void deliver_raw(struct input *in)
{
    static uint8_t raw[4096];
    size_t length = take(in) % 3 == 0 ? PACK_HEADER_BYTES + PACK_VALUE_BYTES * (size_t)take(in) : take(in);
    uint64_t link = take_number(in);
    for (size_t k = 0; k < length; k++)
        raw[k] = take(in);
    deliver(0, link, raw, length, take(in));
}

/* A word of a state: anywhere, or one of the numbers, marks and settings before word 177. */
static void plant(struct input *in)
{
    unsigned p = take(in) % STATES;
    size_t at = take(in);
    if (at >= 177)
        at = (at << 8 | take(in)) % PACK_STATE_WORDS;
    words_of(p)[at] = take(in) & 1 ? take_word(in) : take_number(in);
    kept[p].whole = false;
    irregular = true;
}

static void reopen(struct input *in, struct opening *opening, unsigned p)
{
    *opening = take_opening(in);
    uint64_t own = take_number(in);
    open_state(opening, p, own, take(in));
    irregular = true;
}

/* Bits from the box, any bit, or any request. */
static void record_coins(struct input *in, const struct opening *opening, uint8_t code)
{
    switch (code >> 4 & 3) {
    case 0: record_told(opening, 1 + (code >> 6) * 10); break;
    case 1: record_any(in, code >> 6); break;
    case 2: box_request_any(in); break;
    default: box_plant(in); break;
    }
}

static void call(struct input *in, struct opening *opening)
{
    static const size_t bytes[8] = {140, 0, 11, 12, 139, 141, 1024, 140}, words[8] = {16, 0, 15, 17, 16, 64, 16, 16};
    uint8_t code = take(in), choice;
    switch (code & 15) {
    case 0: run_feeder(code >> 4); break;
    case 1: case 2: case 3: case 4: forge(in, code, opening); break;
    case 5: case 6: turn(code >> 4 & 3, PACK_MESSAGE_BYTES, 0); break;
    case 7: choice = take(in); turn(code >> 4 & 3, bytes[choice & 7], take(in)); break;
    case 8: report(code >> 4 & 3, PACK_SET_WORDS, PACK_SET_WORDS, 0); break;
    case 9: choice = take(in); report(code >> 4 & 3, words[choice & 7], words[choice >> 3 & 7], take(in)); break;
    case 10: deliver_raw(in); break;
    case 11: copy_from_all(in); break;
    case 12: plant(in); break;
    case 13:
        /* Of the four codes of a request to the box the last two are the conversions' and the calendar's. */
        if (code == 0xad)
            convert_any(in);
        else if (code == 0xed)
            start_any(in);
        else
            record_coins(in, opening, code);
        break;
    case 14: reopen(in, opening, code >> 4 & 3); break;
    default:
        for (unsigned turns = 0; turns < 1600 && turn(code >> 4 & 3, PACK_MESSAGE_BYTES, 0); turns++) {
        }
        break;
    }
}

int LLVMFuzzerInitialize(int *count, char ***arguments)
{
    (void)count, (void)arguments;
    struct lent *const others[] = {&weights_lent, &bytes_lent,   &line_lent, &named_lent,    &in_force_lent,
                                   &box_lent,     &windows_lent, &text_lent, &converted_lent};
    for (unsigned p = 0; p < STATES; p++)
        lent_make(&state[p]);
    for (size_t k = 0; k < sizeof others / sizeof *others; k++)
        lent_make(others[k]);
    return 0;
}

int LLVMFuzzerTestOneInput(const uint8_t *data, size_t size)
{
    struct input in = {data, data + size};
    struct opening opening = take_opening(&in);
    sent_count = 0;
    irregular = false;
    box_open(opening.n, opening.ta, opening.ts, opening.weights, opening.weight_count);
    for (unsigned p = 0; p < STATES; p++) {
        lend_filled(&state[p], STATE_BYTES, 0);
        kept[p].whole = false;
        open_state(&opening, p, p + 1, 0);
    }
    while (in.at < in.end)
        call(&in, &opening);
    for (unsigned p = 0; p < STATES; p++) {
        report(p, PACK_SET_WORDS, PACK_SET_WORDS, 0);
        check_kept(&kept[p], words_of(p));
    }
    return 0;
}
