/* The calendar: any windows, closing minute and lead, and what the answer owes. */
#ifndef CALENDAR_H
#define CALENDAR_H

#include "counters.h"
#include "input.h"
#include "lent.h"
#include "pack_agreement.h"

#define CALENDAR_NUMBERS (2 * PACK_WINDOWS_MAX + 8)

static struct lent windows_lent;

struct calendar {
    uint32_t windows[CALENDAR_NUMBERS];
    size_t numbers;
    uint64_t closing, lead;
};

/* Mostly whole windows, up to 16; each starts anywhere and is a minute long, or 41 minutes, or longer. */
static inline void take_windows(struct input *in, struct calendar *calendar)
{
    static const size_t counts[8] = {0, 1, 3, 31, 33, 34, 35, CALENDAR_NUMBERS};
    uint8_t count = take(in);
    calendar->numbers = count < 0xf0 ? 2 + 2 * (size_t)(count % PACK_WINDOWS_MAX) : counts[count & 7];
    for (size_t k = 0; k < calendar->numbers; k++) {
        uint32_t byte = take(in);
        if (k % 2 == 0)
            calendar->windows[k] = (byte << 8 | take(in)) % PACK_WEEK_MINUTES;
        else {
            uint32_t end = calendar->windows[k - 1] + 1 + 40 * byte;
            calendar->windows[k] = end < PACK_WEEK_MINUTES ? end : PACK_WEEK_MINUTES;
        }
    }
}

/* At times changes one number, to one on the edge or to any. */
static inline void damage_windows(struct input *in, struct calendar *calendar)
{
    static const uint32_t edges[8] = {0, 1, PACK_WEEK_MINUTES - 1, PACK_WEEK_MINUTES, PACK_WEEK_MINUTES + 1,
                                      1u << 16, 1u << 31, UINT32_MAX};
    uint8_t place = take(in);
    if (place < 0xc0 || calendar->numbers == 0)
        return;
    uint8_t choice = take(in);
    calendar->windows[place % calendar->numbers] = choice < 0x80 ? edges[choice & 7] : (uint32_t)take_word(in);
}

/* A number up to the limit, a small one, one near the limit, or any. */
static inline uint64_t take_limited(struct input *in, uint64_t limit)
{
    uint8_t choice = take(in);
    if (choice < 0x80)
        return take_word(in) % (limit + 1);
    if (choice < 0xc0)
        return choice & 0x3f;
    return choice < 0xe0 ? limit - 2 + (choice & 3) : take_word(in);
}

static inline bool calendar_right(const struct calendar *calendar)
{
    size_t numbers = calendar->numbers;
    if (numbers == 0 || numbers > 2 * PACK_WINDOWS_MAX || numbers % 2 != 0)
        return false;
    for (size_t k = 0; k < numbers; k += 2)
        if (calendar->windows[k] >= calendar->windows[k + 1] || calendar->windows[k + 1] > PACK_WEEK_MINUTES)
            return false;
    return calendar->closing <= PACK_CLOSING_MAX && calendar->lead <= PACK_LEAD_MAX;
}

static inline bool in_window(const struct calendar *calendar, uint64_t minute)
{
    uint64_t of_week = minute % PACK_WEEK_MINUTES;
    for (size_t k = 0; k < calendar->numbers; k += 2)
        if (calendar->windows[k] <= of_week && of_week < calendar->windows[k + 1])
            return true;
    return false;
}

/* A start lies in a window, within a week; where it is not the earliest minute, that one and the one before it do not. */
static inline void check_start(const struct calendar *calendar, uint64_t minute)
{
    uint64_t earliest = calendar->closing + calendar->lead;
    require(minute >= earliest && minute - earliest < PACK_WEEK_MINUTES, "a start before its time, or over a week later");
    require(in_window(calendar, minute), "a start outside the windows");
    require(minute == earliest || (!in_window(calendar, earliest) && !in_window(calendar, minute - 1)),
            "an earlier start is left out");
    unsigned later = minute == earliest ? 1 : minute / PACK_WEEK_MINUTES == earliest / PACK_WEEK_MINUTES ? 2 : 3;
    note(6, (unsigned)calendar->numbers * 4 + later);
}

/* A second call answers the same; an empty list may be null or not. */
static inline void start_any(struct input *in)
{
    struct calendar calendar;
    take_windows(in, &calendar);
    damage_windows(in, &calendar);
    calendar.closing = take_limited(in, PACK_CLOSING_MAX);
    calendar.lead = take_limited(in, PACK_LEAD_MAX);
    size_t numbers = calendar.numbers, bytes = numbers * sizeof calendar.windows[0];
    memcpy(windows_lent.end - bytes, calendar.windows, bytes);
    const uint32_t *windows = lend(&windows_lent, bytes);
    pack_answer answer = pack_start_minute(numbers == 0 ? NULL : windows, numbers, calendar.closing, calendar.lead);
    pack_answer again = pack_start_minute(windows, numbers, calendar.closing, calendar.lead);
    require(lent_kept(&windows_lent, 0), "the calendar changed the windows");
    require(answer.number == again.number, "the calendar answers the same call otherwise");
    bool right = calendar_right(&calendar);
    calls_made++;
    calls_accepted += right;
    if (right) {
        require((answer.number & UINT32_MAX) == 0, "a start with other bits");
        check_start(&calendar, pack_minute_of(answer));
    } else {
        require(answer.number == PACK_REFUSED_WINDOWS, "a calendar outside the rules is taken");
        note(6, (unsigned)numbers * 4);
    }
}

#endif
