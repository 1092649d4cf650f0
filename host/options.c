#include "options.h"

#include <errno.h>
#include <stdio.h>
#include <stdlib.h>
#include <string.h>

const char *const usage =
    "usage: pack_host [--version VERSION] [-s SESSION] [-c COIN] [--weights LIST] [--boxed] [--journals DIRECTORY]\n"
    "                 [--windows LIST --closing MINUTE [--lead MINUTES]] [N TA TS [INPUT ...]]\n"
    "\n"
    "Runs an agreement session of N concentrators, all honest, and prints a line for each, fields parted by tabs:\n"
    "number, exit (0 for none), closed (0 or 1), turns, the values in force in hexadecimal, or \"-\"; with --windows\n"
    "also the minute from which they are in force, or \"-\".\n"
    "\n"
    "  N TA TS               the settings (4 - 1); TA as \"-\" is 0, as 255 the largest that the rules allow\n"
    "  INPUT                 the pack number of each concentrator, N of them (5 for each)\n"
    "  --version VERSION     the version of the session, 1 or 2 (1); in version 2 a decided vote winds up early\n"
    "  -s SESSION            the session number, 32 bits (1)\n"
    "  -c COIN               the coin word of every vote, 32 bits; bit r-1 is the coin of round r (0x55555555)\n"
    "  --weights LIST        the weight of each concentrator, 1 to 4, N of them parted by commas (1 for each)\n"
    "  --boxed               has the coins in a box, which the concentrators ask for each coin, and not printed\n"
    "  --journals DIRECTORY  keeps the journal of each concentrator in a file there, and goes on from the journals\n"
    "                        that are there: so the program may be killed and started again with the same arguments\n"
    "  --windows LIST        the windows in which a set may start, 1 to 16 of them parted by commas, each as FIRST-END in\n"
    "                        minutes of the week, 0 to 10080; minute 0 is Monday 00:00, and END is outside\n"
    "  --closing MINUTE      the minute in which the session closes, counted from a Monday 00:00, up to 4000000000\n"
    "  --lead MINUTES        how long after that a set starts at the earliest, up to 10080 (0)\n"
    "\n"
    "Numbers are decimal, or hexadecimal after 0x. The status is 0, or 1 on an error.\n";

bool fail(const char *what, const char *about)
{
    fprintf(stderr, "pack_host: %s: %s\n", about, what);
    return false;
}

/* Reads a number of at most `limit`. */
static bool read_number(const char *text, uint64_t limit, uint64_t *number)
{
    bool hex = text[0] == '0' && (text[1] == 'x' || text[1] == 'X');
    const char *digits = hex ? text + 2 : text;
    const char *allowed = hex ? "0123456789abcdefABCDEF" : "0123456789";
    if (digits[0] == '\0' || digits[strspn(digits, allowed)] != '\0')
        return fail("not a number", text);
    errno = 0;
    unsigned long long value = strtoull(digits, NULL, hex ? 16 : 10);
    if (errno != 0 || value > limit)
        return fail("too large", text);
    *number = value;
    return true;
}

static bool read_word(const char *text, uint32_t *word)
{
    uint64_t value;
    if (!read_number(text, UINT32_MAX, &value))
        return false;
    *word = (uint32_t)value;
    return true;
}

/* Cuts the text at the next mark and gives what stands before it; `rest` goes behind the mark, NULL where there is none. */
static char *cut(char **rest, char mark)
{
    char *item = *rest, *end = strchr(item, mark);
    *rest = end == NULL ? NULL : end + 1;
    if (end != NULL)
        *end = '\0';
    return item;
}

/* Reads numbers parted by commas. Whether they are weights is the engine's to say. */
static bool read_weights(char *list, struct options *o)
{
    o->weight_count = 0;
    while (list != NULL) {
        char *item = cut(&list, ',');
        uint64_t weight;
        if (*item == '\0')
            return fail("a weight is missing", "--weights");
        if (!read_number(item, UINT8_MAX, &weight))
            return false;
        if (o->weight_count == PACK_CONCENTRATORS)
            return fail("more than 16 weights", item);
        o->weights[o->weight_count++] = (uint8_t)weight;
    }
    return true;
}

/* Reads FIRST-END. */
static bool read_window(char *item, uint32_t *window)
{
    const char *dash = strchr(item, '-');
    if (dash == NULL || dash == item || dash[1] == '\0')
        return fail("not FIRST-END", item);
    const char *first = cut(&item, '-');
    return read_word(first, &window[0]) && read_word(item, &window[1]);
}

/* Reads windows parted by commas. Whether they are in the week is the engine's to say. */
static bool read_windows(char *list, struct options *o)
{
    o->window_numbers = 0;
    while (list != NULL) {
        char *item = cut(&list, ',');
        if (*item == '\0')
            return fail("a window is missing", "--windows");
        if (o->window_numbers == 2 * PACK_WINDOWS_MAX)
            return fail("more than 16 windows", item);
        if (!read_window(item, &o->windows[o->window_numbers]))
            return false;
        o->window_numbers += 2;
    }
    return true;
}

/* Whether there is such a version is the engine's to say. */
static bool read_version(char *value, struct options *o) { return read_number(value, UINT64_MAX, &o->version); }

static bool read_session(char *value, struct options *o) { return read_word(value, &o->session); }

static bool read_coin(char *value, struct options *o) { return read_word(value, &o->coin); }

static bool read_closing(char *value, struct options *o)
{
    o->has_closing = true;
    return read_number(value, UINT64_MAX, &o->closing);
}

static bool read_lead(char *value, struct options *o)
{
    o->has_lead = true;
    return read_number(value, UINT64_MAX, &o->lead);
}

static bool read_journals(char *value, struct options *o)
{
    o->journals = value;
    return true;
}

/* An option with a value: what is said where that is missing, and what reads it. */
struct option {
    const char *flag, *missing;
    bool (*read)(char *value, struct options *o);
};

static const struct option with_value[] = {
    {"--version", "a number is missing", read_version},
    {"-s", "a number is missing", read_session},
    {"-c", "a number is missing", read_coin},
    {"--weights", "a number is missing", read_weights},
    {"--journals", "a directory is missing", read_journals},
    {"--windows", "a window is missing", read_windows},
    {"--closing", "a number is missing", read_closing},
    {"--lead", "a number is missing", read_lead},
};

/* The option with a value of that name, or NULL. */
static const struct option *find_option(const char *flag)
{
    for (size_t k = 0; k < sizeof with_value / sizeof with_value[0]; k++)
        if (strcmp(flag, with_value[k].flag) == 0)
            return &with_value[k];
    return NULL;
}

/* Reads the options; `at` is left at the first argument that is none. */
static bool read_flags(int argc, char **argv, int *at, struct options *o)
{
    for (; *at < argc && argv[*at][0] == '-' && argv[*at][1] != '\0'; *at += 2) {
        const char *flag = argv[*at];
        if (strcmp(flag, "--boxed") == 0) {
            /* It has no value. */
            o->boxed = true;
            --*at;
            continue;
        }
        const struct option *option = find_option(flag);
        if (option == NULL)
            return fail("unknown option, see --help", flag);
        if (*at + 1 == argc)
            return fail(option->missing, flag);
        if (!option->read(argv[*at + 1], o))
            return false;
    }
    return true;
}

/* Reads N TA TS. Whether they are settings of a session is the engine's to say; here N has only to fit the tables. */
static bool read_settings(char **argv, struct options *o)
{
    if (!read_number(argv[0], UINT64_MAX, &o->n) || !read_number(argv[2], UINT64_MAX, &o->ts))
        return false;
    if (o->n < 1 || o->n > PACK_CONCENTRATORS)
        return fail("N is not 1 to 16", argv[0]);
    o->ta = 0;
    return strcmp(argv[1], "-") == 0 || read_number(argv[1], UINT64_MAX, &o->ta);
}

/* Reads what stands behind the options, from `at` on: nothing, N TA TS, or these and the inputs. */
static bool read_rest(int argc, char **argv, int at, struct options *o)
{
    if (at == argc)
        return true;
    if (argc - at < 3)
        return fail("N TA TS wanted, see --help", argv[at]);
    if (!read_settings(argv + at, o))
        return false;
    at += 3;
    if (at == argc)
        return true;
    if ((uint64_t)(argc - at) != o->n)
        return fail("not as many inputs as concentrators", argv[at]);
    for (int i = 0; at + i < argc; i++)
        if (!read_number(argv[at + i], UINT64_MAX, &o->inputs[i]))
            return false;
    return true;
}

/* The options of the calendar are given together; the lead may be left out. */
static bool check_calendar(const struct options *o)
{
    bool windows = o->window_numbers != 0;
    if (windows && !o->has_closing)
        return fail("--closing is missing", "--windows");
    if (!windows && o->has_closing)
        return fail("--windows is missing", "--closing");
    if (!windows && o->has_lead)
        return fail("--windows is missing", "--lead");
    return true;
}

bool read_options(int argc, char **argv, struct options *o)
{
    int at = 1;
    *o = (struct options){.version = PACK_VERSION_1, .n = 4, .ta = 0, .ts = 1, .session = 1, .coin = 0x55555555};
    for (size_t i = 0; i < PACK_CONCENTRATORS; i++) {
        o->inputs[i] = 5;
        o->weights[i] = 1;
    }
    if (!read_flags(argc, argv, &at, o) || !read_rest(argc, argv, at, o))
        return false;
    if (o->weight_count != 0 && o->weight_count != o->n)
        return fail("not as many weights as concentrators", "--weights");
    return check_calendar(o);
}
