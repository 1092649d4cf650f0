/*
 * A session of one concentrator over the header alone, a start, and a delivery list there and back; this is C and C++.
 * Prints how it went.
 */
#include "pack_agreement.h"

#include <stdio.h>

static uint64_t state[PACK_STATE_WORDS];
static uint8_t message[PACK_MESSAGE_BYTES], line[PACK_LINE_BYTES];

static int refused(pack_answer answer)
{
    enum pack_refusal refusal = pack_refusal_of(answer);
    printf("%u %s\n", (unsigned)refusal, pack_refusal_name(refusal));
    return 1;
}

/* One turn, and the delivery of what it sent; 0 where the session goes on. */
static int go_on(void)
{
    pack_answer turn = pack_turn(state, PACK_STATE_WORDS, message, sizeof message, line, sizeof line);
    if (pack_refusal_of(turn) != PACK_ACCEPTED)
        return refused(turn);
    printf("%s", pack_outcome_name(pack_outcome_of(turn)));
    switch (pack_outcome_of(turn)) {
    case PACK_OUTCOME_IDLE:
    case PACK_OUTCOME_MOVED_OUT:
    case PACK_OUTCOME_IN_FORCE: printf("\n"); return 0;
    case PACK_OUTCOME_SENT: break;
    }
    printf(" %u, %u bytes\n", (unsigned)pack_message_kind(message), (unsigned)pack_length_of(turn));
    uint64_t link = pack_message_sender(message);
    pack_answer delivery =
        pack_deliver(state, PACK_STATE_WORDS, link, message, pack_length_of(turn), line, sizeof line);
    return pack_refusal_of(delivery) == PACK_ACCEPTED ? 0 : refused(delivery);
}

/* The latest minute that the calendar can name. */
static int start_latest(void)
{
    static const uint32_t windows[2] = {3999, 4000};
    pack_answer start = pack_start_minute(windows, 2, PACK_CLOSING_MAX, PACK_LEAD_MAX);
    if (pack_refusal_of(start) != PACK_ACCEPTED)
        return refused(start);
    printf("start %u\n", (unsigned)pack_minute_of(start));
    return 0;
}

/* A line to its record and back. */
static int convert_list(void)
{
    static const uint8_t given[] = {'a', '\t', 'b', ',', '"', '\n'};
    uint8_t record[16], back[sizeof given];
    pack_answer there = pack_drill_to_csv(given, sizeof given, record, sizeof record);
    if (pack_refusal_of(there) != PACK_ACCEPTED)
        return refused(there);
    pack_answer here = pack_csv_to_drill(record, pack_written_of(there), back, sizeof back);
    if (pack_refusal_of(here) != PACK_ACCEPTED)
        return refused(here);
    int same = pack_written_of(here) == sizeof given;
    for (size_t k = 0; same && k < sizeof given; k++)
        same = back[k] == given[k];
    /* Without its CR LF. */
    printf("%u bytes: %.*s\n", (unsigned)pack_written_of(there), (int)pack_written_of(there) - 2, (const char *)record);
    printf("%s\n", same ? "the same line" : "another line");
    pack_answer open_quote = pack_csv_to_drill((const uint8_t *)"\n\"", 2, back, sizeof back);
    printf("record %u: ", (unsigned)pack_record_of(open_quote));
    (void)refused(open_quote);
    return 0;
}

int main(void)
{
    static const uint32_t coins[1] = {1};
    static const uint8_t weights[1] = {1};
    uint64_t named[PACK_SET_WORDS], in_force[PACK_SET_WORDS];
    pack_answer opening = pack_open(state, PACK_STATE_WORDS, PACK_VERSION_1, 1, PACK_UNNAMED, 0, 1, 7, 5, coins, 1,
                                    weights, 1, PACK_COINS_PRINTED, line, sizeof line);
    if (pack_refusal_of(opening) != PACK_ACCEPTED)
        return refused(opening);
    while (go_on() == 0) {
    }
    pack_answer report = pack_report(state, PACK_STATE_WORDS, named, PACK_SET_WORDS, in_force, PACK_SET_WORDS);
    printf("%u turns, %u in force: %u\n", (unsigned)pack_turns_of(report), (unsigned)pack_in_force_of(report),
           (unsigned)in_force[0]);
    if (pack_refusal_of(report) != PACK_ACCEPTED)
        return refused(report);
    return start_latest() == 0 ? convert_list() : 1;
}
