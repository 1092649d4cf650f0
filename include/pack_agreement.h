/*
 * The pack agreement engine: one concentrator's end of an agreement session.
 *
 * The engine keeps nothing of its own. A session lives in a buffer of PACK_STATE_WORDS words that the caller lends to
 * every call on it and otherwise leaves alone. Opening sets the whole buffer, whatever it held.
 *
 * A delivery records one message and does nothing else; a turn does the one thing that is due and answers it. So after
 * opening, and after each delivery, call pack_turn until it answers idle. A message that a turn answers as sent goes to
 * all n concentrators, the sender included, by pack_deliver. The turn that answers "in force" closes the session: from
 * then on pack_deliver and pack_turn are refused with PACK_REFUSED_CLOSED, and pack_report gives the set in force.
 *
 * Every concentrator has a weight. Where a rule wants enough senders, or enough instances, it is their weights that are
 * summed, and ta and ts limit the weight of those that lie; W is the sum of all n weights.
 *
 * MEMORY. Every value of every argument has its answer, in every order of calls. The caller owes that each pointer has as
 * many elements behind it as its count says, that buffers do not overlap, and that nothing else uses them while the call
 * runs; calls on different states may run at the same time. A count is a number of elements: 64-bit words, 32-bit coin
 * words, 32-bit numbers of windows or bytes. A null pointer with count 0 is an empty buffer. No call keeps a pointer or
 * allocates; of the C library only memcpy and memset are used. pack_restore has a second state on the stack, 16,384 bytes,
 * and takes some 18,500 bytes of it in all; the other calls take up to 1,350.
 *
 * AGREEMENT rests on more than memory. The engine cannot see whether the following is kept, and takes calls that break it.
 * A concentrator whose host does not keep it counts among those that lie, with its weight:
 *   - It opens a session once, under its own number, with the settings and coins that all have: version, n, ta, ts, session,
 *     coins, weights, boxed. One that lost its state is restored from its journal. To open the session again is to speak
 *     with a second voice under one number.
 *   - A session number is not used again while messages of the session that had it may still come.
 *   - Nothing but these calls writes its state.
 *   - The link vouches for its sender: what is delivered as from a concentrator is what a turn there sent in this session,
 *     byte for byte.
 *   - The line of a turn is stored for good before the message leaves; one that lost lines of messages that left does not
 *     rejoin that session. More at the journal, below.
 *   - With boxed coins it records the bits that the session's one box told.
 * What a turn sent goes to all n, later where a radio was down. No set rests on that, but a session may stay open for want
 * of it.
 * Promised of the concentrators that keep this, whatever the others send:
 *   - Where the others weigh ta at most, all sets that exits name or that are in force are one and the same set, and no vote
 *     is decided 1 unless the broadcast of that number had output before, at one that keeps it.
 *   - Where they weigh ts at most and all that keep it put in the same pack, no other set is named or comes into force.
 *   - Where they weigh ts at most, no set comes into force that the exits of one that keeps it had not named before, and
 *     every set that is named or in force has a pack that one that keeps it put in.
 * Where they weigh more than ts nothing is promised of sets. Never promised is that a session closes, or when.
 *
 * THE VERSION of a session, 1 or 2, says how its votes end; byte 0 of every message names it. In version 1 a vote that is
 * decided goes on through its rounds until the session closes, which fills the air after everybody has decided. In version 2
 * it sends FINISH with its value, once, and nothing more. FINISHes of one value from concentrators of weight ta + 1 have an
 * undecided vote send FINISH too, and go on; those of weight 2 * ta + 1 decide it as the last of them is delivered. All that
 * is promised above is promised of both versions. What a planner has to know:
 *   - All concentrators of a session open the same version. One that opened the other is refused by them, and refuses them,
 *     with PACK_REFUSED_KIND.
 *   - A session of version 2 can come to rest without closing where one of version 1 would close, and one that lies or fails
 *     is enough for it. With n = 4 and ta = ts = 1: what 4 says last reaches 1 alone, and 1 decides a vote with it, sends
 *     FINISH and falls silent there; one FINISH moves nobody, and 2 and 3 alone are too few to end a round.
 *     tests/host/stalled.c plays it. No set is in force then; the host does what it does with any session that stays open.
 *
 * THE JOURNAL is for a concentrator that may lose its memory, or fall back to an older image of it. Every opening, delivery
 * and recording that is accepted, and every turn that is neither idle nor refused, writes one line of text into bytes that
 * the caller lends; the lines of a session, one behind the other, are its journal, and each opening starts a new one.
 * pack_restore rebuilds the state from it, also where it was cut at any byte behind its first line. What the host owes:
 *   - Store the lines in the order of the calls, none left out, and the line of a turn for good before its message leaves.
 *     A message has left once it was delivered anywhere, to the concentrator itself too.
 *   - After a restore, write new lines behind the last complete line: cut the journal there. Turns of lost lines never
 *     happened, and what they sent must not leave any more unless it is sent again.
 *   - A concentrator whose journal lost the line of a message that left would count among those that lie: the engine cannot
 *     tell, and accepts such a journal. It must stay out of that session.
 * A journal is believed: a line that was changed and is still one that the calls could have written is applied as it
 * stands. Whoever can write the journal can say anything in the concentrator's name.
 *
 * COINS of the votes are printed, given to every concentrator at its opening, or boxed: then one coin box for the
 * session holds them. The box runs on a device of its own that no concentrator can read. It is trusted to keep its buffer to
 * itself and to tell all the same; its two calls, pack_box_open and pack_box_request, are made there. It tells a coin only
 * once concentrators of weight ta + 1 have asked for it, so that those that lie, of weight ta at most, cannot read coins
 * beforehand. Agreement does not rest on that secrecy: it asks only that the bits which honest ones record are the same.
 * What the host of a boxed session owes:
 *   - Ask for the coin of round r of a vote when that vote is in round r. Asking earlier lets liars see coins sooner.
 *     The round of a vote is the highest round of the ESTs that the concentrator's own turns have sent for it: its start
 *     sends an EST of round 1, a move out of round r one of round r + 1, and a relay never one of a higher round. The
 *     vote of an EST is its instance. In version 2 a vote that is decided and has sent FINISH moves no more, but the others
 *     may need its request for the round that it is in.
 *   - Ask again later where the answer is sealed.
 *   - Record the bit by pack_record before the next turn: the move out of that round waits for it. Its line is stored as the
 *     others are. After a restore, ask for the coins of the rounds whose lines were lost; the box tells the same bits.
 *
 * THE CALENDAR is for a planner who wants sets to start in agreed hours only. pack_start_minute names the first minute in a
 * window that is not before the closing minute and a lead together. It is a function of its arguments alone: it reads and
 * writes no state, and no other call looks at what it answers.
 *   - Minutes are counted from a Monday 00:00, and so are those of the week: the minute of the week of minute m is
 *     m % PACK_WEEK_MINUTES. Which clock counts them, with its time zone and summer time, is for the hosts to decide, one
 *     clock for all.
 *   - A window is a first minute of the week and an end, which is outside it. Windows may overlap and stand in any order.
 *     A window does not run past the end of the week; two can: 10,020 to 10,080 and 0 to 60 are the hours around Sunday
 *     midnight.
 *   - Where all concentrators are to start in the same minute, all are given the same windows, the same closing minute and
 *     the same lead. The calendar does not know when others closed, and each closes in its own minute: two closing minutes,
 *     one just before the end of a window and one just after it, may give starts up to a week apart.
 *
 * DELIVERY LISTS are kept by an office as records of RFC 4180; the drill reads lines. pack_csv_to_drill turns records into
 * lines and pack_drill_to_csv lines into records, field by field, whatever the fields mean. Both read a text and write into
 * bytes that the caller lends; they use no state, and no other call looks at what they answer.
 *   - A record ends with CR LF or with LF, outside quotes; the last one may lack its end. A comma outside quotes stands
 *     between any two fields. A field has no quote and is its bytes, or it stands in quotes from its first byte to its last,
 *     every quote between them doubled, and is what stands between them, with one quote for each two. Any other quote is
 *     broken. A CR outside quotes that no LF follows is a byte of its field, and spaces are bytes like others.
 *   - A line ends with LF; the last one may lack it. A tab stands between any two fields, and a quote is a byte like others.
 *   - A text without bytes has no record and no line. An empty record or line has one field, which is empty.
 *   - A record or line is taken if it has no broken quote, at most 16 fields, no field over 64 bytes, the quotes undone, and
 *     no field with a tab, CR or LF. Where one is not taken nothing is written for any.
 *   - Records are written with CR LF behind each, and a field stands in quotes only where it has a comma or a quote. Lines
 *     are written with LF behind each.
 *   - There and back: lines that are taken, each ended by LF, turned to records and back are the same bytes. Records that
 *     are taken, turned to lines and back, have the same fields. What one direction writes the other takes.
 *
 * docs/HOST.md has more on what a host owes, and a session in which two did not keep it.
 */
#ifndef PACK_AGREEMENT_H
#define PACK_AGREEMENT_H

#include <stddef.h>
#include <stdint.h>

#include "pack_message.h"

#if SIZE_MAX != UINT64_MAX
#error "the engine's archive is for 64-bit targets"
#endif

#ifdef __cplusplus
extern "C" {
#endif

/*
 * The version of this header. It rises by one with each change that a program written for it must know of: a name, a
 * number, a layout, what an answer means or what the caller owes. What is only added leaves it.
 */
#define PACK_HEADER_VERSION 2

/* Has the compiler warn where an answer is not looked at. */
#if defined(__cplusplus) && __cplusplus >= 201703L
#define PACK_MUST_USE [[nodiscard]]
#elif !defined(__cplusplus) && defined(__STDC_VERSION__) && __STDC_VERSION__ >= 202311L
#define PACK_MUST_USE [[nodiscard]]
#elif defined(__GNUC__)
#define PACK_MUST_USE __attribute__((warn_unused_result))
#else
#define PACK_MUST_USE
#endif

/* Words of a state, exactly. */
#define PACK_STATE_WORDS 2048
/* Bytes that opening, delivery, turn and recording must be lent at least for the line of the journal. */
#define PACK_LINE_BYTES 512
/* The length of the line of a turn. */
#define PACK_TURN_LINE 2
/* Words that a report must be lent at least for each set. */
#define PACK_SET_WORDS 16
/* Words of a coin box, exactly. */
#define PACK_BOX_WORDS 552
/* Concentrators of a session at most. */
#define PACK_CONCENTRATORS 16
/* The largest weight of a concentrator; the smallest is 1. */
#define PACK_WEIGHT_MAX 4
/* ta as it is given where none is named: it is then the largest that the rules allow. */
#define PACK_UNNAMED 255
/* The last round of a vote; the first is 1. */
#define PACK_ROUNDS 32
/* Minutes of a week; the first is minute 0, a Monday 00:00. */
#define PACK_WEEK_MINUTES 10080
/* Windows of a calendar at most. */
#define PACK_WINDOWS_MAX 16
/* The largest closing minute that the calendar takes. */
#define PACK_CLOSING_MAX UINT64_C(4000000000)
/* The largest lead that the calendar takes, in minutes: a week. */
#define PACK_LEAD_MAX 10080

/*
 * What a call answers: one number, taken apart by the functions at the end. Bits 0 to 7 are 0 where it was accepted, else
 * the number of the refusal; a refusal sets no other bit, but for the number of a line with PACK_REFUSED_JOURNAL and of a
 * record or line with PACK_REFUSED_RECORD, and leaves state and buffers as they were.
 * It is a struct so that an answer compared with a refusal or an outcome does not compile. It travels as a uint64_t does,
 * in the same register, and other languages may declare it as one.
 */
typedef struct pack_answer {
    /* The bits, as each call lists them. */
    uint64_t number;
} pack_answer;

/* The refusals, bits 0 to 7 of an answer. */
enum pack_refusal {
    /* No refusal. */
    PACK_ACCEPTED = 0,
    /*
     * A version, setting, weight or own number outside the rules, not exactly n coin words and n weights, coins that are
     * neither printed nor boxed, or boxed ones with a coin word that is not 0.
     */
    PACK_REFUSED_SETTINGS = 1,
    /* Under 12 bytes, or not 12 + 8 * count. */
    PACK_REFUSED_LENGTH = 2,
    /* A version that is not the session's, or a kind that its version does not have. */
    PACK_REFUSED_KIND = 3,
    /* Another session number. */
    PACK_REFUSED_SESSION = 4,
    /* Byte 2 is not the link's concentrator, or that is not 1 to n. */
    PACK_REFUSED_SENDER = 5,
    /* Byte 3 to 7 against the layout. */
    PACK_REFUSED_FIELD = 6,
    /* EST, AUX or FINISH above 1, or COMMIT not rising. */
    PACK_REFUSED_VALUE = 7,
    /*
     * A turn or restore lent under 140 bytes for the message, an opening, delivery, turn or recording lent under 512 bytes
     * for the line, a report lent under 16 words for either set, a conversion lent fewer bytes than it would write.
     */
    PACK_REFUSED_SHORT = 8,
    /* Not PACK_STATE_WORDS words, or stored numbers that no session has; opening a box, not PACK_BOX_WORDS words. */
    PACK_REFUSED_NO_STATE = 9,
    /* Delivery, turn or recording after closing. */
    PACK_REFUSED_CLOSED = 10,
    /* That place already holds a message. */
    PACK_REFUSED_HELD = 11,
    /*
     * Calendar: no window or more than PACK_WINDOWS_MAX, a window outside the rules or without an end, or a closing minute
     * or lead over its limit.
     */
    PACK_REFUSED_WINDOWS = 12,
    /* Conversion: a record or line that is not taken. */
    PACK_REFUSED_RECORD = 13,
    /* A journal without a complete opening line, or with a complete line that cannot be applied. */
    PACK_REFUSED_JOURNAL = 15,
    /*
     * Recording: a vote or round outside the layout, a bit above 1 or against the one that is there, or a session whose
     * coins are printed. Request: a requester, vote or round outside the layout, or a buffer that is no box.
     */
    PACK_REFUSED_COIN = 16
};

/*
 * The outcomes of a turn. The low byte of each is what bits 8 to 15 of the answer hold; 256 is added to all, so that
 * none passes for a refusal.
 */
enum pack_outcome {
    /* Nothing is due. */
    PACK_OUTCOME_IDLE = 256,
    /* A message is sent. */
    PACK_OUTCOME_SENT = 257,
    /* A vote moved out of round 32: nothing is sent, and more may be due. */
    PACK_OUTCOME_MOVED_OUT = 258,
    /* A set is in force, and the session is closed. */
    PACK_OUTCOME_IN_FORCE = 259
};

/* Where the coins of a session are, as opening takes it. */
enum pack_coins {
    /* In the words that opening is given. */
    PACK_COINS_PRINTED = 0,
    /* In the session's box. */
    PACK_COINS_BOXED = 1
};

/*
 * Opens a session of a version, PACK_VERSION_1 or PACK_VERSION_2, and of n concentrators, 1 to 16, with ta <= ts and
 * 2 * ts + ta < W, at the one numbered own, 1 to n.
 * ta given as PACK_UNNAMED is the largest that these rules allow, the smaller of ts and W - 1 - 2 * ts; where 2 * ts >= W
 * they allow none, and the opening is refused.
 * input is the own pack number, any value. coins are n words: bit r - 1 of word i, counted from 1, is the coin of vote
 * i in round r. weights are n bytes, that of concentrator 1 first, each 1 to PACK_WEIGHT_MAX; where all are 1, W is n.
 * boxed is PACK_COINS_PRINTED or PACK_COINS_BOXED; with boxed coins all n words are 0, and the bits are recorded later.
 * version, n, ta, ts, session, coins, weights and boxed are the same at all concentrators of a session; it is the same ta
 * whether it was named or left unnamed.
 * The line of the journal stands at the front of the lent bytes; the others keep their value. It starts a new journal:
 * "O", the version, n, ta as it was given, ts, own, session, input in 16 hexadecimal digits, the coin words in 8 each, the
 * weights and boxed, fields parted by tabs, ended by a line feed.
 * Answer: bits 16 to 31 the length of the line in bytes, the others 0.
 * Refusals, in this order: PACK_REFUSED_NO_STATE (the word count only), PACK_REFUSED_SETTINGS, PACK_REFUSED_SHORT.
 */
PACK_MUST_USE
pack_answer pack_open(uint64_t *state, size_t words, uint64_t version, uint64_t n, uint64_t ta, uint64_t ts, uint64_t own,
                      uint32_t session, uint64_t input, const uint32_t *coins, size_t coin_words,
                      const uint8_t *weights, size_t weight_count, uint64_t boxed, uint8_t *line, size_t line_bytes);

/*
 * Records a message that came over the link of concentrator `link`. A FINISH may decide its vote, and with it what a report
 * names.
 * Its line, at the front of the lent bytes, is "D", the link and the message in hexadecimal; the other bytes keep their
 * value.
 * Answer: bits 16 to 31 the length of the line in bytes, the others 0.
 * Refusals, in this order: PACK_REFUSED_NO_STATE, PACK_REFUSED_CLOSED, PACK_REFUSED_LENGTH to PACK_REFUSED_VALUE,
 * PACK_REFUSED_HELD, PACK_REFUSED_SHORT.
 */
PACK_MUST_USE
pack_answer pack_deliver(uint64_t *state, size_t words, uint64_t link, const uint8_t *message, size_t length,
                         uint8_t *line, size_t line_bytes);

/*
 * Does the first thing due. A message that is sent stands at the front of the bytes lent for it, and a turn that is not
 * idle writes its line, "T" and a line feed (PACK_TURN_LINE bytes), to the front of the bytes lent for that; the others
 * keep their value.
 * Answer: bits 8 to 15 the outcome, bits 16 to 31 the length of the message in bytes (0 unless sent), the others 0.
 * Refusals, in this order: PACK_REFUSED_NO_STATE, PACK_REFUSED_CLOSED, PACK_REFUSED_SHORT; an idle turn wants both
 * buffers too.
 */
PACK_MUST_USE
pack_answer pack_turn(uint64_t *state, size_t words, uint8_t *message, size_t capacity, uint8_t *line,
                      size_t line_bytes);

/*
 * Reports on a state, also on a closed one. The set that the exits name stands at the front of the first lent buffer,
 * the set in force at the front of the second, both rising in a state that these calls wrote; the other words keep
 * their value.
 * Answer: bits 8 to 15 the exit (1 to 3, 0 for none), bits 16 to 23 the number of values named, bits 24 to 31 the
 * number of values in force (0: none), bits 32 to 63 the number of turns since opening that did not answer idle; after a
 * restore those of the journal's lines count.
 * Refusals, in this order: PACK_REFUSED_NO_STATE, PACK_REFUSED_SHORT.
 */
PACK_MUST_USE
pack_answer pack_report(const uint64_t *state, size_t words, uint64_t *named, size_t named_words, uint64_t *in_force,
                        size_t in_force_words);

/*
 * Rebuilds the state after the last complete line of a journal, whatever the words held. A line is complete with its line
 * feed; what stands behind the last one is not looked at. The first line must be an opening's, and each further one that of
 * a delivery, a turn or a recording. An opening's line that ends with its weights, or with its coin words, as it was before
 * there were boxes or weights, reads as printed, and with weights of 1. If the last line is that of a turn that sent a
 * message, the message stands again at the front of the lent bytes, since it may not have left; the others keep their value.
 * Where a line cannot be applied the answer is PACK_REFUSED_JOURNAL: it has not the form above (leading zeros and capital
 * letters are another form), its call would be refused, it is a turn that would be idle, or an opening behind the first
 * line.
 * Answer: bits 8 to 15 are 1 where a message is given again, else 0, bits 16 to 31 its length in bytes, bits 32 to 63 the
 * number of bytes of the journal up to the end of the last complete line, modulo 2^32. With PACK_REFUSED_JOURNAL bits 8 to
 * 63 are the number of the first line, from 1, that cannot be applied, and 1 where no line is complete.
 * Refusals, in this order: PACK_REFUSED_NO_STATE (the word count only), PACK_REFUSED_SHORT, PACK_REFUSED_JOURNAL; each
 * leaves the state's words and the lent bytes as they were.
 */
PACK_MUST_USE
pack_answer pack_restore(uint64_t *state, size_t words, const uint8_t *journal, size_t journal_bytes,
                         uint8_t *message, size_t capacity);

/*
 * Records in a boxed session that the coin of a vote, 1 to n, in a round, 1 to PACK_ROUNDS, is this bit, 0 or 1; the vote
 * need not have reached the round, and may have left it. A repeat is accepted. Its line, at the front of the lent bytes, is
 * "K", the vote, the round and the bit; the other bytes keep their value.
 * Answer: bits 16 to 31 the length of the line in bytes, the others 0.
 * Refusals, in this order: PACK_REFUSED_NO_STATE, PACK_REFUSED_CLOSED, PACK_REFUSED_COIN, PACK_REFUSED_SHORT.
 */
PACK_MUST_USE
pack_answer pack_record(uint64_t *state, size_t words, uint64_t vote, uint64_t round, uint64_t bit, uint8_t *line,
                        size_t line_bytes);

/*
 * Opens a coin box for a session of either version: n, ta, ts and weights are those of the session, and coins are n words as
 * a printed session has them.
 * Opening sets the whole buffer, whatever it held.
 * Answer: 0.
 * Refusals, in this order: PACK_REFUSED_NO_STATE (the word count only), PACK_REFUSED_SETTINGS.
 */
PACK_MUST_USE
pack_answer pack_box_open(uint64_t *box, size_t words, uint64_t n, uint64_t ta, uint64_t ts, const uint32_t *coins,
                          size_t coin_words, const uint8_t *weights, size_t weight_count);

/*
 * Concentrator `requester`, 1 to n, asks the box for the coin of a vote, 1 to n, in a round, 1 to PACK_ROUNDS. Until those
 * that have asked for it weigh ta + 1, each counted once, the answer is sealed; the request that completes the weight is
 * told the bit, and so is every later one. That the request came from the requester is for its link to say.
 * Answer: bits 8 to 15 are 0 for sealed and 1 for a bit, which stands in bits 16 to 23, the others 0.
 * Refusal: PACK_REFUSED_COIN.
 */
PACK_MUST_USE
pack_answer pack_box_request(uint64_t *box, size_t words, uint64_t requester, uint64_t vote, uint64_t round);

/*
 * Names the minute from which a set is in force: the smallest one, not before closing + lead, whose minute of the week lies
 * in a window. windows are 1 to PACK_WINDOWS_MAX windows as one list, first, end, first, end and so on, each with
 * first < end <= PACK_WEEK_MINUTES; numbers counts the numbers, two for each window. closing is PACK_CLOSING_MAX at most,
 * lead PACK_LEAD_MAX.
 * Answer: bits 32 to 63 the minute, the others 0.
 * Refusal: PACK_REFUSED_WINDOWS.
 */
PACK_MUST_USE
pack_answer pack_start_minute(const uint32_t *windows, size_t numbers, uint64_t closing, uint64_t lead);

/*
 * Turns records into lines. The whole text is read before a byte is written. The lines stand at the front of the lent bytes;
 * the others keep their value.
 * Answer: bits 8 to 63 the number of bytes written, modulo 2^56. With PACK_REFUSED_RECORD they are the number of the first
 * record, from 1, that is not taken, modulo 2^56.
 * Refusals, in this order: PACK_REFUSED_RECORD, PACK_REFUSED_SHORT where the lines have more than capacity bytes.
 */
PACK_MUST_USE
pack_answer pack_csv_to_drill(const uint8_t *records, size_t length, uint8_t *lines, size_t capacity);

/*
 * Turns lines into records. The whole text is read before a byte is written. The records stand at the front of the lent
 * bytes; the others keep their value.
 * Answer: bits 8 to 63 the number of bytes written, modulo 2^56. With PACK_REFUSED_RECORD they are the number of the first
 * line, from 1, that is not taken, modulo 2^56.
 * Refusals, in this order: PACK_REFUSED_RECORD, PACK_REFUSED_SHORT where the records have more than capacity bytes.
 */
PACK_MUST_USE
pack_answer pack_drill_to_csv(const uint8_t *lines, size_t length, uint8_t *records, size_t capacity);

/* The parts of an answer. */

/* PACK_ACCEPTED, or why the call was refused. */
static inline enum pack_refusal pack_refusal_of(pack_answer answer) { return (enum pack_refusal)(answer.number & 0xff); }

/* What a turn that was accepted did; of a restore, PACK_OUTCOME_SENT where a message is given again, else idle. */
static inline enum pack_outcome pack_outcome_of(pack_answer answer)
{
    return (enum pack_outcome)(PACK_OUTCOME_IDLE + (answer.number >> 8 & 0xff));
}

/* Of the message that a turn sent or a restore gives again, or of the line of an opening, a delivery or a recording. */
static inline size_t pack_length_of(pack_answer answer) { return (size_t)(answer.number >> 16 & 0xffff); }

/* The exit of a report, 1 to 3, or 0 for none. */
static inline unsigned pack_exit_of(pack_answer report) { return (unsigned)(report.number >> 8 & 0xff); }

/* How many values a report names. */
static inline size_t pack_named_of(pack_answer report) { return (size_t)(report.number >> 16 & 0xff); }

/* How many values a report has in force; 0 where the session is not closed. */
static inline size_t pack_in_force_of(pack_answer report) { return (size_t)(report.number >> 24 & 0xff); }

/* The turns that a report counts. */
static inline uint64_t pack_turns_of(pack_answer report) { return report.number >> 32; }

/* The bytes of the complete lines that a restore took, modulo 2^32. */
static inline uint32_t pack_complete_of(pack_answer restore) { return (uint32_t)(restore.number >> 32); }

/* Whether a request is told the bit, not that it is sealed. */
static inline int pack_told_of(pack_answer request) { return (request.number >> 8 & 0xff) != 0; }

/* The bit, where it is told. */
static inline unsigned pack_bit_of(pack_answer request) { return (unsigned)(request.number >> 16 & 0xff); }

/* The minute that the calendar names. */
static inline uint32_t pack_minute_of(pack_answer start) { return (uint32_t)(start.number >> 32); }

/* The bytes that a conversion wrote, modulo 2^56. */
static inline size_t pack_written_of(pack_answer conversion) { return (size_t)(conversion.number >> 8); }

/* The line that is refused with PACK_REFUSED_JOURNAL. */
static inline uint64_t pack_line_of(pack_answer restore) { return restore.number >> 8; }

/* The record or line that is refused with PACK_REFUSED_RECORD, modulo 2^56. */
static inline uint64_t pack_record_of(pack_answer conversion) { return conversion.number >> 8; }

/* Words for printing. */

/* The published word of a refusal. */
static inline const char *pack_refusal_name(enum pack_refusal refusal)
{
    switch (refusal) {
    case PACK_ACCEPTED: return "ACCEPTED";
    case PACK_REFUSED_SETTINGS: return "SETTINGS";
    case PACK_REFUSED_LENGTH: return "LENGTH";
    case PACK_REFUSED_KIND: return "KIND";
    case PACK_REFUSED_SESSION: return "SESSION";
    case PACK_REFUSED_SENDER: return "SENDER";
    case PACK_REFUSED_FIELD: return "FIELD";
    case PACK_REFUSED_VALUE: return "VALUE";
    case PACK_REFUSED_SHORT: return "SHORT";
    case PACK_REFUSED_NO_STATE: return "NO STATE";
    case PACK_REFUSED_CLOSED: return "CLOSED";
    case PACK_REFUSED_HELD: return "HELD";
    case PACK_REFUSED_WINDOWS: return "WINDOWS";
    case PACK_REFUSED_RECORD: return "RECORD";
    case PACK_REFUSED_JOURNAL: return "JOURNAL";
    case PACK_REFUSED_COIN: return "COIN";
    }
    return "unknown";
}

/* What a turn did. */
static inline const char *pack_outcome_name(enum pack_outcome outcome)
{
    switch (outcome) {
    case PACK_OUTCOME_IDLE: return "idle";
    case PACK_OUTCOME_SENT: return "sent";
    case PACK_OUTCOME_MOVED_OUT: return "moved out of round 32";
    case PACK_OUTCOME_IN_FORCE: return "in force";
    }
    return "unknown";
}

#ifdef __cplusplus
}
#endif

#endif
