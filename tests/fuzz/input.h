/* The bytes of an input, taken one after another; behind the end they are 0. */
#ifndef INPUT_H
#define INPUT_H

#include <stdint.h>

struct input {
    const uint8_t *at, *end;
};

static inline uint8_t take(struct input *in) { return in->at < in->end ? *in->at++ : 0; }

static inline uint64_t take_word(struct input *in)
{
    uint64_t word = 0;
    for (int byte = 0; byte < 8; byte++)
        word = word << 8 | take(in);
    return word;
}

/* Mostly the byte itself; from 0xf0 on a number from the edge of what fits. */
static inline uint64_t take_number(struct input *in)
{
    static const uint64_t edges[16] = {255, 256, 257, 33, 34, 99 * 4 + 3, 99 * 4 + 4, 1587, 1588, UINT32_MAX,
                                       (uint64_t)1 << 32, (uint64_t)1 << 63, ((uint64_t)1 << 63) + 1, UINT64_MAX - 1,
                                       UINT64_MAX, 100 * 4 + 3};
    uint8_t byte = take(in);
    return byte < 0xf0 ? byte : edges[byte & 15];
}

#endif
