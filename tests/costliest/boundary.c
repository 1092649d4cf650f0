/* The C boundary of the costliest session: refusals, calls that are not there, and bytes that must keep their value. */
#include <inttypes.h>
#include <stdio.h>
#include <string.h>

#include "pack_costliest.h"

enum { ROOM = 160, FILL = 0xa5 };

static int failed;

static void expect(const char *what, uint64_t got, uint64_t wanted)
{
    if (got == wanted)
        return;
    fprintf(stderr, "tests/costliest: %s: %#" PRIx64 " for %#" PRIx64 "\n", what, got, wanted);
    failed = 1;
}

/* The number of a call with `lent` of ROOM bytes, of which all but the first `written` must keep their value. */
static uint64_t ask(const char *what, uint64_t n, uint64_t k, size_t lent, size_t written)
{
    uint8_t bytes[ROOM];
    memset(bytes, FILL, sizeof bytes);
    uint64_t answer = pack_costliest_call(n, k, bytes, lent).number;
    for (size_t i = written; i < sizeof bytes; i++)
        expect(what, bytes[i], FILL);
    return answer;
}

static void check_refusals(void)
{
    static const uint64_t numbers[] = {0, 17, 256 + 4, UINT64_MAX};
    for (size_t i = 0; i < sizeof numbers / sizeof *numbers; i++) {
        expect("n outside 1 to 16", ask("bytes of a refusal", numbers[i], 1, PACK_MESSAGE_BYTES, 0),
               PACK_REFUSED_SETTINGS);
        expect("n before the bytes", ask("bytes of a refusal", numbers[i], 1, 0, 0), PACK_REFUSED_SETTINGS);
    }
    expect("139 bytes", ask("bytes of a refusal", 4, 1, PACK_MESSAGE_BYTES - 1, 0), PACK_REFUSED_SHORT);
    expect("139 bytes past the end", ask("bytes of a refusal", 4, UINT64_MAX, PACK_MESSAGE_BYTES - 1, 0),
           PACK_REFUSED_SHORT);
    expect("no bytes", pack_costliest_call(4, 1, NULL, 0).number, PACK_REFUSED_SHORT);
}

/* All calls of n, and none before the first and after the last. */
static void check_calls(uint64_t n, uint64_t count)
{
    for (uint64_t k = 1; k <= count; k++) {
        uint8_t message[PACK_MESSAGE_BYTES];
        pack_answer call = pack_costliest_call(n, k, message, sizeof message);
        int delivery = pack_costliest_kind_of(call) == PACK_COSTLIEST_DELIVERY;
        size_t written = delivery ? pack_costliest_length_of(call) : 0;
        expect("refusal of a call", pack_refusal_of(call), PACK_ACCEPTED);
        expect("call that is there", pack_costliest_kind_of(call) == PACK_COSTLIEST_NONE, 0);
        expect("call in more room", ask("bytes beside a message", n, k, ROOM, written), call.number);
    }
    expect("call 0", ask("bytes of no call", n, 0, ROOM, 0), 0);
    expect("call past the end", ask("bytes of no call", n, count + 1, ROOM, 0), 0);
    expect("last number", ask("bytes of no call", n, UINT64_MAX, ROOM, 0), 0);
}

static void check_settings(uint64_t n)
{
    const uint64_t wanted[] = {0, n, 0, 0, 1, 7, 5};
    for (uint64_t k = 0; k < sizeof wanted / sizeof *wanted; k++)
        expect("setting", pack_costliest_setting(n, k), wanted[k]);
    for (uint64_t k = 7; k < 7 + 2 * PACK_CONCENTRATORS; k++)
        expect("coin word, or past them", pack_costliest_setting(n, k), 0);
    expect("last setting", pack_costliest_setting(n, UINT64_MAX), 0);
}

int main(void)
{
    check_refusals();
    check_calls(1, 9);
    for (uint64_t n = 2; n <= PACK_CONCENTRATORS; n++)
        check_calls(n, 33 * n * n + 165 * n + 3);
    check_settings(1);
    check_settings(16);
    check_settings(UINT64_MAX);
    return failed;
}
