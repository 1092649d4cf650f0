/* The command line of the host. */
#ifndef HOST_OPTIONS_H
#define HOST_OPTIONS_H

#include <stdbool.h>
#include <stddef.h>
#include <stdint.h>

#include "pack_agreement.h"

struct options {
    uint64_t version, n, ta, ts;
    uint32_t session, coin;
    uint64_t inputs[PACK_CONCENTRATORS];
    uint8_t weights[PACK_CONCENTRATORS];
    /* Weights given; 0 where the option is not there. */
    size_t weight_count;
    /* Whether the coins are in a box. */
    bool boxed;
    /* The directory of the journals, or NULL. */
    const char *journals;
    /* The windows of the calendar as the engine takes them, and their numbers; 0 where the option is not there. */
    uint32_t windows[2 * PACK_WINDOWS_MAX];
    size_t window_numbers;
    uint64_t closing, lead;
    /* Whether these two are given. */
    bool has_closing, has_lead;
};

extern const char *const usage;

/* Prints an error and gives false, for the caller to return. */
bool fail(const char *what, const char *about);

bool read_options(int argc, char **argv, struct options *o);

#endif
