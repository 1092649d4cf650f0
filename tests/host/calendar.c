/*
 * The calendar as C calls it. The minutes are worked out by hand: weeks begin at 10,080, 20,160 and so on, and minute
 * 4,000,000,000 is minute 4,000 of its week.
 */
#include <string.h>

#include "expect.h"
#include "pack_agreement.h"

/* The numbers of a list and how many they are, as two arguments. */
#define LIST(...) (const uint32_t[]){__VA_ARGS__}, sizeof((const uint32_t[]){__VA_ARGS__}) / sizeof(uint32_t)

/* Seventeen windows of one minute, one more than there may be. */
static const uint32_t many[34] = {0,    1,    600,  601,  1200, 1201, 1800, 1801, 2400, 2401, 3000, 3001,
                                  3600, 3601, 4200, 4201, 4800, 4801, 5400, 5401, 6000, 6001, 6600, 6601,
                                  7200, 7201, 7800, 7801, 8400, 8401, 9000, 9001, 9600, 9601};

/*
 * Asks twice. An answer that looks beside the list is another one: before it stands the whole week, behind it an end for a
 * window that has none, with which no window can begin.
 */
static pack_answer ask(const uint32_t *windows, size_t numbers, uint64_t closing, uint64_t lead)
{
    uint32_t lent[2 + 34 + 2] = {0, 10080}, old[2 + 34 + 2];
    memcpy(lent + 2, windows, numbers * sizeof *windows);
    lent[2 + numbers] = 10080;
    memcpy(old, lent, sizeof old);
    pack_answer answer = pack_start_minute(lent + 2, numbers, closing, lead);
    expect(memcmp(old, lent, sizeof old) == 0, "the list and what is beside it stay");
    expect(pack_start_minute(lent + 2, numbers, closing, lead).number == answer.number, "the same answer again");
    return answer;
}

/* Expects this minute, and no other bit. */
static void names(uint64_t minute, const uint32_t *windows, size_t numbers, uint64_t closing, uint64_t lead,
                  const char *what)
{
    pack_answer answer = ask(windows, numbers, closing, lead);
    expect(answer.number == minute << 32, what);
    expect(pack_refusal_of(answer) == PACK_ACCEPTED && pack_minute_of(answer) == minute, what);
}

/* Expects the refusal, and no other bit. */
static void refuses(const uint32_t *windows, size_t numbers, uint64_t closing, uint64_t lead, const char *what)
{
    expect(ask(windows, numbers, closing, lead).number == 12, what);
}

static void test_constants(void)
{
    expect(PACK_WEEK_MINUTES == 10080 && PACK_WINDOWS_MAX == 16, "the week and the windows");
    expect(PACK_CLOSING_MAX == 4000000000 && PACK_LEAD_MAX == 10080, "the limits of closing and lead");
    expect(PACK_REFUSED_WINDOWS == 12 && strcmp(pack_refusal_name(PACK_REFUSED_WINDOWS), "WINDOWS") == 0, "the refusal");
}

/* A minute before a window, its first, its last, and its end. */
static void test_window(void)
{
    names(60, LIST(60, 300), 0, 0, "long before a window");
    names(60, LIST(60, 300), 59, 0, "a minute before a window");
    names(60, LIST(60, 300), 60, 0, "the first minute of a window");
    names(299, LIST(60, 300), 299, 0, "the last minute of a window");
    names(10140, LIST(60, 300), 300, 0, "the end of a window is outside");
    names(10140, LIST(60, 300), 301, 0, "a minute behind the end");
    names(10140, LIST(60, 300), 10079, 0, "the last minute of the week");
    names(10140, LIST(60, 300), 10080, 0, "the first minute of the second week");
    names(10379, LIST(60, 300), 10379, 0, "the last minute of a window, a week later");
    names(20220, LIST(60, 300), 10380, 0, "the end of a window, a week later");
}

static void test_lead(void)
{
    names(299, LIST(60, 300), 290, 9, "a lead up to the last minute");
    names(10140, LIST(60, 300), 290, 10, "a lead up to the end");
    names(10140, LIST(60, 300), 200, 100, "a longer lead up to the end");
    names(10140, LIST(60, 300), 10000, 100, "a sum in the next week, before the window");
    names(10200, LIST(60, 300), 10000, 200, "a sum in the next week, in the window");
    names(20220, LIST(60, 300), 10000, 400, "a sum in the next week, behind the window");
    names(20220, LIST(60, 300), 10000, 10080, "a lead of a week, before the window");
    names(10280, LIST(60, 300), 200, 10080, "a lead of a week, in the window");
    names(299, LIST(60, 300, 1500, 1740), 200, 99, "a lead within the first of two windows");
    names(1500, LIST(60, 300, 1500, 1740), 200, 100, "a lead up to the end of the first");
    names(1600, LIST(60, 300, 1500, 1740), 200, 1400, "a lead into the second");
    names(10140, LIST(60, 300, 1500, 1740), 200, 1540, "a lead up to the end of the second");
}

static void test_week(void)
{
    names(10079, LIST(10079, 10080), 0, 0, "the week's last minute");
    names(10079, LIST(10079, 10080), 10079, 0, "the week's last minute, from itself");
    names(20159, LIST(10079, 10080), 10080, 0, "the week's last minute, from the next week");
    names(20159, LIST(10079, 10080), 10078, 2, "the week's last minute, passed by the lead");
    names(0, LIST(0, 1), 0, 0, "the week's first minute");
    names(10080, LIST(0, 1), 1, 0, "the week's first minute, just missed");
    names(10080, LIST(0, 1), 10079, 0, "the week's first minute, from the last");
    names(0, LIST(0, 10080), 0, 0, "the whole week, from its first minute");
    names(10079, LIST(0, 10080), 10079, 0, "the whole week, from its last minute");
    names(10080, LIST(0, 10080), 10080, 0, "the whole week, from the next");
    names(12, LIST(0, 10080), 5, 7, "the whole week, with a lead");
    names(10079, LIST(9000, 10080), 10079, 0, "a window up to the week's end, in its last minute");
    names(19080, LIST(9000, 10080), 10080, 0, "a window up to the week's end, at its end");
    names(10079, LIST(10020, 10080, 0, 60), 10079, 0, "two windows over the week's end, before it");
    names(10080, LIST(10020, 10080, 0, 60), 10080, 0, "two windows over the week's end, at it");
    names(10080, LIST(10020, 10080, 0, 60), 10079, 1, "two windows over the week's end, a lead over it");
    names(10139, LIST(10020, 10080, 0, 60), 10020, 119, "two windows over the week's end, last minute");
    names(20100, LIST(10020, 10080, 0, 60), 10020, 120, "two windows over the week's end, behind them");
}

static void test_order(void)
{
    names(299, LIST(60, 300, 200, 400), 299, 0, "overlapping, in both");
    names(300, LIST(60, 300, 200, 400), 300, 0, "overlapping, in the second alone");
    names(10140, LIST(60, 300, 200, 400), 400, 0, "overlapping, behind both");
    names(300, LIST(200, 400, 60, 300), 300, 0, "overlapping, the later one first");
    names(60, LIST(200, 400, 60, 300), 0, 0, "overlapping, before both");
    names(250, LIST(60, 400, 100, 200), 250, 0, "one within the other");
    names(10140, LIST(60, 300, 60, 300), 300, 0, "the same twice");
    names(300, LIST(60, 300, 300, 400), 300, 0, "one at the end of the other");
    names(60, LIST(9000, 9060, 6000, 6060, 3000, 3060, 60, 120), 0, 0, "falling, the last is nearest");
    names(3000, LIST(9000, 9060, 6000, 6060, 3000, 3060, 60, 120), 120, 0, "falling, the third is nearest");
    names(6000, LIST(9000, 9060, 6000, 6060, 3000, 3060, 60, 120), 3060, 0, "falling, the second is nearest");
    names(9000, LIST(9000, 9060, 6000, 6060, 3000, 3060, 60, 120), 6060, 0, "falling, the first is nearest");
    names(10140, LIST(9000, 9060, 6000, 6060, 3000, 3060, 60, 120), 9060, 0, "falling, the last is nearest, next week");
    names(3000, LIST(60, 120, 9000, 9060, 3000, 3060), 2000, 0, "mixed, the last is nearest");
    names(3000, LIST(60, 120, 3000, 3060, 9000, 9060), 2000, 0, "rising, the one in the middle is nearest");
    names(10110, LIST(5000, 5010, 4000, 4010, 30, 40), 6000, 0, "mixed, the last is nearest, next week");
}

static void test_count(void)
{
    uint32_t spoiled[32];
    names(8400, many, 30, 7801, 0, "15 windows, the last is nearest");
    names(10080, many, 30, 8401, 0, "15 windows, behind the last");
    names(9000, many, 32, 8401, 0, "16 windows, the last is nearest");
    names(10080, many, 32, 9001, 0, "16 windows, behind the last");
    names(600, many, 32, 1, 0, "16 windows, the second is nearest");
    refuses(many, 34, 0, 0, "17 windows");
    refuses(many, 0, 0, 0, "no window");
    expect(pack_start_minute(NULL, 0, 0, 0).number == 12, "no list");
    refuses(many, 1, 0, 0, "one number");
    refuses(many, 3, 0, 0, "three numbers");
    refuses(many, 31, 0, 0, "31 numbers");
    refuses(many, 33, 0, 0, "33 numbers");
    memcpy(spoiled, many, sizeof spoiled);
    spoiled[31] = 9000;
    refuses(spoiled, 32, 0, 0, "the sixteenth of 16 windows is bad");
}

static void test_bad_windows(void)
{
    refuses(LIST(60, 60), 0, 0, "first is end");
    refuses(LIST(0, 0), 0, 0, "first is end, minute 0");
    refuses(LIST(10080, 10080), 0, 0, "first is end, the week's");
    refuses(LIST(300, 60), 0, 0, "first behind end");
    refuses(LIST(10020, 60), 10020, 0, "past the end of the week");
    refuses(LIST(60, 10081), 60, 0, "end 10,081");
    refuses(LIST(10079, 10081), 10079, 0, "end 10,081, in the week's last minute");
    refuses(LIST(10080, 10081), 0, 0, "first 10,080");
    refuses(LIST(0, 4294967295), 0, 0, "end 2^32 - 1");
    refuses(LIST(4294967295, 60), 0, 0, "first 2^32 - 1");
    refuses(LIST(4294967236, 60), 0, 0, "first 2^32 - 60");
    refuses(LIST(4294967294, 4294967295), 0, 0, "both near 2^32");
    refuses(LIST(4294967295, 4294967295), 0, 0, "both 2^32 - 1");
    refuses(LIST(300, 60, 60, 300, 600, 700), 60, 0, "the first of three is bad");
    refuses(LIST(60, 300, 600, 600, 900, 1000), 60, 0, "the second of three is bad");
    refuses(LIST(60, 300, 600, 10081, 900, 1000), 60, 0, "the second of three ends behind the week");
    refuses(LIST(60, 300, 600, 700, 1000, 900), 60, 0, "the last of three is bad");
    refuses(LIST(60, 300, 600, 700, 900, 10081), 60, 0, "the last of three ends behind the week");
    refuses(LIST(60, 300, 600), 60, 0, "the last has no end");
}

static void test_limits(void)
{
    names(4000000000, LIST(0, 10080), 4000000000, 0, "the largest closing minute");
    names(4000010080, LIST(0, 10080), 4000000000, 10080, "the largest closing minute and lead");
    names(4000000000, LIST(4000, 4001), 3999999999, 0, "a minute before the largest closing minute");
    names(4000000000, LIST(4000, 4001), 4000000000, 0, "the largest closing minute in a window of one minute");
    names(4000010080, LIST(4000, 4001), 4000000000, 1, "the same with a lead");
    names(4000020159, LIST(3999, 4000), 4000000000, 10080, "the largest answer");
    names(10080, LIST(0, 10080), 0, 10080, "the largest lead");
    refuses(LIST(0, 10080), 4000000001, 0, "closing minute one above");
    refuses(LIST(0, 10080), 4294967296, 0, "closing minute 2^32");
    refuses(LIST(0, 10080), UINT64_MAX, 0, "closing minute 2^64 - 1");
    refuses(LIST(0, 10080), 0, 10081, "lead one above");
    refuses(LIST(0, 10080), 0, 4294967296, "lead 2^32");
    refuses(LIST(0, 10080), 0, UINT64_MAX, "lead 2^64 - 1");
    refuses(LIST(0, 10080), UINT64_MAX, 1, "a sum of 2^64");
    refuses(LIST(0, 10080), 18446744073709541536u, 10080, "a sum of 2^64, the lead within its limit");
    refuses(LIST(0, 10080), 4000000000, 18446744069709551616u, "a sum of 2^64, the closing minute within its limit");
    refuses(LIST(0, 10080), UINT64_MAX, UINT64_MAX, "a sum of 2^65 - 2");
}

int main(void)
{
    test_constants();
    test_window();
    test_lead();
    test_week();
    test_order();
    test_count();
    test_bad_windows();
    test_limits();
    return failures == 0 ? 0 : 1;
}
