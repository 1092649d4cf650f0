/*
 * The journal of one concentrator, in a file of its own. Every function gives false after printing an error. A line is for
 * good on the medium once journal_add gives true.
 */
#ifndef HOST_JOURNAL_H
#define HOST_JOURNAL_H

#include <stdbool.h>
#include <stddef.h>
#include <stdint.h>

struct journal {
    /* Whether there is a file. */
    bool kept;
    int file;
    char path[4096];
    /* What was read, until it is forgotten. */
    uint8_t *lines;
    size_t length;
};

/* Opens, or makes, the file of a concentrator in a directory, and reads it. */
bool journal_read(struct journal *j, const char *directory, uint64_t number);

/* Cuts the file to so many bytes; new lines follow them. */
bool journal_cut(struct journal *j, size_t length);

/* Forgets what was read; the file stays open. */
void journal_forget(struct journal *j);

/* Stores a line, if there is a file. */
bool journal_add(struct journal *j, const uint8_t *line, size_t length);

bool journal_close(struct journal *j);

/* Where the line that starts at `start` ends, behind its line feed; 0 where no complete line does. */
size_t journal_line_end(const uint8_t *lines, size_t length, size_t start);

#endif
