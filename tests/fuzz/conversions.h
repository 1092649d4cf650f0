/* Delivery lists: any text with any room, in both directions, and what the answer owes (19.8, 19.9). */
#ifndef CONVERSIONS_H
#define CONVERSIONS_H

#include "counters.h"
#include "input.h"
#include "lent.h"
#include "pack_agreement.h"

#define LIST_BYTES 2048
/* A text is at most three times as long once it is converted, and 3 bytes. */
#define LIST_ROOM (3 * LIST_BYTES + 3)

typedef pack_answer conversion(const uint8_t *text, size_t length, uint8_t *out, size_t capacity);

static struct lent text_lent, converted_lent;

/* Bytes as they come; from 0xe0 on, the one behind it many times, so that the limits are near. */
static inline size_t take_text(struct input *in, uint8_t *text)
{
    static const size_t counts[8] = {2, 15, 16, 17, 63, 64, 65, 128};
    size_t length = 0;
    for (unsigned steps = take(in); steps > 0; steps--) {
        uint8_t byte = take(in);
        size_t times = 1;
        if (byte >= 0xe0) {
            times = counts[byte & 7];
            byte = take(in);
        }
        for (; times > 0 && length < LIST_BYTES; times--)
            text[length++] = byte;
    }
    return length;
}

/* Makes the call; a refusal changes nothing, and the text stays. Empty buffers are null. */
static inline pack_answer convert(conversion *call, const uint8_t *text, size_t length, size_t capacity)
{
    memcpy(text_lent.end - length, text, length);
    const uint8_t *lent = lend(&text_lent, length);
    uint8_t *out = lend_filled(&converted_lent, capacity, 0xa5);
    pack_answer answer = call(length == 0 ? NULL : lent, length, capacity == 0 ? NULL : out, capacity);
    enum pack_refusal refusal = pack_refusal_of(answer);
    size_t written = refusal == PACK_ACCEPTED ? pack_written_of(answer) : 0;
    require(lent_kept(&text_lent, 0), "a conversion changed its text");
    require(written <= capacity && lent_kept(&converted_lent, written), "a conversion wrote other bytes");
    require(refusal == PACK_ACCEPTED || refusal == PACK_REFUSED_RECORD || answer.number == PACK_REFUSED_SHORT,
            "a refusal that no conversion has");
    calls_made++;
    calls_accepted += refusal == PACK_ACCEPTED;
    return answer;
}

/* Makes a call that must be taken, and copies what it wrote; the length. */
static inline size_t converted(conversion *call, const uint8_t *text, size_t length, uint8_t *result)
{
    pack_answer answer = convert(call, text, length, 3 * length + 3);
    require(pack_refusal_of(answer) == PACK_ACCEPTED, "what a conversion wrote or took is not taken");
    memcpy(result, lent_start(&converted_lent), pack_written_of(answer));
    return pack_written_of(answer);
}

/* Where the first so many LFs of a text are over, or the text is. */
static inline size_t behind_ends(const uint8_t *text, size_t length, uint64_t ends)
{
    size_t at = 0;
    while (at < length && ends > 0)
        ends -= text[at++] == '\n';
    return at;
}

/* A record that is taken has one LF, so the LFs before the refused one are counted: those before it are taken alone. */
static inline void check_refused(conversion *call, const uint8_t *text, size_t length, pack_answer answer)
{
    static uint8_t front[LIST_ROOM];
    uint64_t record = pack_record_of(answer);
    size_t before = behind_ends(text, length, record - 1);
    require(record >= 1 && before < length, "the number of a record that is not there");
    converted(call, text, before, front);
    require(convert(call, text, behind_ends(text, length, record), 0).number == answer.number,
            "a refused record is taken alone");
    require(convert(call, text, length, 0).number == answer.number, "no room goes before a refused record");
}

/* 19.9. Lines come back as they are, but for the last one's LF; the fields of records as the lines that they were. */
static inline void check_back(conversion *call, conversion *other, const uint8_t *text, size_t length)
{
    static uint8_t there[LIST_ROOM], back[3 * LIST_ROOM], again[3 * LIST_ROOM];
    size_t there_length = converted(call, text, length, there);
    size_t back_length = converted(other, there, there_length, back);
    if (call == pack_drill_to_csv) {
        bool ended = length == 0 || text[length - 1] == '\n';
        require(back_length == length + (ended ? 0 : 1) && memcmp(text, back, length) == 0, "lines come back otherwise");
    }
    size_t again_length = converted(call, back, back_length, again);
    require(again_length == there_length && memcmp(there, again, there_length) == 0, "fields come back otherwise");
}

/* Records that are taken have no tab, and a CR only before LF; lines have no CR (19.5). */
static inline void check_taken(conversion *call, const uint8_t *text, size_t length)
{
    for (size_t k = 0; k < length; k++) {
        require(text[k] != '\r' || (call == pack_csv_to_drill && k + 1 < length && text[k + 1] == '\n'), "a CR is taken");
        require(text[k] != '\t' || call == pack_drill_to_csv, "a tab is taken");
    }
}

/* With just enough room it is taken; with this room too, or it is refused for it. */
static inline void check_room(conversion *call, const uint8_t *text, size_t length, size_t written, size_t capacity)
{
    require(convert(call, text, length, written).number == (uint64_t)written << 8, "just enough room");
    if (written > 0)
        require(convert(call, text, length, written - 1).number == PACK_REFUSED_SHORT, "a byte less");
    require(convert(call, text, length, capacity).number ==
                (capacity < written ? (uint64_t)PACK_REFUSED_SHORT : (uint64_t)written << 8),
            "any room");
}

static inline void convert_any(struct input *in)
{
    static uint8_t text[LIST_BYTES];
    uint8_t direction = take(in) & 1;
    conversion *call = direction ? pack_drill_to_csv : pack_csv_to_drill;
    size_t capacity = 16 * (size_t)take(in), length = take_text(in, text);
    pack_answer answer = convert(call, text, length, 3 * length + 3);
    require(pack_refusal_of(answer) != PACK_REFUSED_SHORT, "enough room");
    if (pack_refusal_of(answer) == PACK_REFUSED_RECORD) {
        check_refused(call, text, length, answer);
        note(7, direction * 512u + 256 + (unsigned)pack_record_of(answer) % 256);
        return;
    }
    size_t written = pack_written_of(answer);
    require((written == 0) == (length == 0), "a text without bytes has no record");
    check_taken(call, text, length);
    check_room(call, text, length, written, capacity);
    check_back(call, direction ? pack_csv_to_drill : pack_drill_to_csv, text, length);
    note(7, direction * 512u + (unsigned)written % 256);
}

#endif
