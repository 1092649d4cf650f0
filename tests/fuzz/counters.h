/* What the fuzzer follows of an archive that is not instrumented, and what is told at the end. */
#ifndef COUNTERS_H
#define COUNTERS_H

#include <stdint.h>
#include <stdio.h>

/* Calls made and accepted. */
static unsigned long calls_made, calls_accepted;

__attribute__((destructor)) static void tell_calls(void)
{
    fprintf(stderr, "calls: %lu made, %lu accepted\n", calls_made, calls_accepted);
}

/* libFuzzer takes these as coverage. */
__attribute__((section("__libfuzzer_extra_counters"))) static uint8_t counters[8 * 1024];

/* Tells the fuzzer of an answer of one of eight kinds, with what makes it different from others. */
static inline void note(unsigned kind, unsigned detail) { counters[kind * 1024 + detail % 1024] = 1; }

#endif
