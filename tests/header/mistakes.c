/* What a compiler must refuse or warn of, in C and in C++: MISTAKE is the number of one of these, 0 stands for none. */
#include "pack_costliest.h"

static uint64_t state[PACK_STATE_WORDS];
static uint8_t message[PACK_MESSAGE_BYTES], line[PACK_LINE_BYTES];

static pack_answer turn(void)
{
    return pack_turn(state, PACK_STATE_WORDS, message, sizeof message, line, sizeof line);
}

int main(void)
{
#if MISTAKE == 0 /* none */
    pack_answer answer = turn();
    if (pack_refusal_of(answer) != PACK_ACCEPTED)
        return 1;
    switch (pack_refusal_of(answer)) {
    case PACK_ACCEPTED: break;
    default: return 1;
    }
    return pack_outcome_of(answer) == PACK_OUTCOME_SENT;
#elif MISTAKE == 1 /* an answer as an outcome */
    return turn() == PACK_OUTCOME_SENT;
#elif MISTAKE == 2 /* an answer as a refusal */
    return turn() == PACK_REFUSED_CLOSED;
#elif MISTAKE == 3 /* an answer as a number */
    return turn() == 0;
#elif MISTAKE == 4 /* an answer as a condition */
    return turn() ? 1 : 0;
#elif MISTAKE == 5 /* an answer by cases */
    switch (turn()) {
    case PACK_OUTCOME_IDLE: return 1;
    default: return 0;
    }
#elif MISTAKE == 6 /* an outcome among the cases of a refusal */
    switch (pack_refusal_of(turn())) {
    case PACK_OUTCOME_IDLE: return 1;
    default: return 0;
    }
#elif MISTAKE == 7 /* a refusal among the cases of an outcome */
    switch (pack_outcome_of(turn())) {
    case PACK_REFUSED_SETTINGS: return 1;
    default: return 0;
    }
#elif MISTAKE == 8 /* an outcome kept as a refusal */
    enum pack_refusal refusal = pack_outcome_of(turn());
    return refusal == PACK_ACCEPTED;
#elif MISTAKE == 9 /* the name of an outcome, asked for as that of a refusal */
    return pack_refusal_name(pack_outcome_of(turn())) == 0;
#elif MISTAKE == 10 /* a call of the costliest session among the cases of an outcome */
    switch (pack_outcome_of(turn())) {
    case PACK_COSTLIEST_TURN: return 1;
    default: return 0;
    }
#elif MISTAKE == 11 /* an answer that nobody looks at */
    pack_turn(state, PACK_STATE_WORDS, message, sizeof message, line, sizeof line);
    return pack_refusal_of(turn()) != PACK_ACCEPTED;
#elif MISTAKE == 12 /* an opening that nobody looks at */
    pack_open(state, PACK_STATE_WORDS, PACK_VERSION_1, 1, 0, 0, 1, 7, 5, 0, 0, 0, 0, PACK_COINS_PRINTED, line, sizeof line);
    return pack_refusal_of(turn()) != PACK_ACCEPTED;
#elif MISTAKE == 13 /* a refusal compared with an outcome: clang has no warning for it in C, and it is never so */
    return pack_refusal_of(turn()) == PACK_OUTCOME_SENT;
#elif MISTAKE == 14 /* an outcome compared with a refusal, likewise */
    return pack_outcome_of(turn()) == PACK_REFUSED_SETTINGS;
#elif MISTAKE == 15 /* a start that nobody looks at */
    pack_start_minute(0, 0, 0, 0);
    return pack_refusal_of(turn()) != PACK_ACCEPTED;
#elif MISTAKE == 16 /* records turned to lines, and nobody looks whether */
    pack_csv_to_drill(message, 0, line, 0);
    return pack_refusal_of(turn()) != PACK_ACCEPTED;
#elif MISTAKE == 17 /* lines turned to records, likewise */
    pack_drill_to_csv(message, 0, line, 0);
    return pack_refusal_of(turn()) != PACK_ACCEPTED;
#endif
}
