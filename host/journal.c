#define _POSIX_C_SOURCE 200809L
#include "journal.h"

#include <errno.h>
#include <fcntl.h>
#include <inttypes.h>
#include <stdio.h>
#include <stdlib.h>
#include <string.h>
#include <sys/stat.h>
#include <unistd.h>

#include "options.h"

/* Prints the error of the last call and gives false. */
static bool failed(const char *path) { return fail(strerror(errno), path); }

size_t journal_line_end(const uint8_t *lines, size_t length, size_t start)
{
    const uint8_t *feed = start < length ? memchr(lines + start, '\n', length - start) : NULL;
    return feed == NULL ? 0 : (size_t)(feed - lines) + 1;
}

/* The name of a file that was made is in its directory for good, too. */
static bool sync_directory(const char *directory)
{
    int file = open(directory, O_RDONLY | O_DIRECTORY);
    if (file < 0)
        return failed(directory);
    bool done = fsync(file) == 0 || failed(directory);
    close(file);
    return done;
}

/* Reads `size` bytes, or as many as there are. */
static bool read_all(struct journal *j, size_t size)
{
    j->length = 0;
    while (j->length < size) {
        ssize_t count = read(j->file, j->lines + j->length, size - j->length);
        if (count < 0 && errno != EINTR)
            return failed(j->path);
        if (count == 0)
            break;
        j->length += count > 0 ? (size_t)count : 0;
    }
    return true;
}

bool journal_read(struct journal *j, const char *directory, uint64_t number)
{
    struct stat about;
    int length = snprintf(j->path, sizeof j->path, "%s/%" PRIu64 ".journal", directory, number);
    if (length < 0 || (size_t)length >= sizeof j->path) {
        errno = ENAMETOOLONG;
        return failed(directory);
    }
    j->file = open(j->path, O_RDWR | O_CREAT, 0666);
    if (j->file < 0)
        return failed(j->path);
    j->kept = true;
    if (!sync_directory(directory))
        return false;
    if (fstat(j->file, &about) != 0)
        return failed(j->path);
    j->lines = malloc((size_t)about.st_size + 1);
    if (j->lines == NULL)
        return failed(j->path);
    return read_all(j, (size_t)about.st_size);
}

bool journal_cut(struct journal *j, size_t length)
{
    off_t end = (off_t)length;
    if (ftruncate(j->file, end) != 0 || lseek(j->file, end, SEEK_SET) != end || fsync(j->file) != 0)
        return failed(j->path);
    return true;
}

void journal_forget(struct journal *j)
{
    free(j->lines);
    j->lines = NULL;
    j->length = 0;
}

bool journal_add(struct journal *j, const uint8_t *line, size_t length)
{
    for (size_t written = 0; j->kept && written < length;) {
        ssize_t count = write(j->file, line + written, length - written);
        if (count < 0 && errno != EINTR)
            return failed(j->path);
        written += count > 0 ? (size_t)count : 0;
    }
    return !j->kept || fsync(j->file) == 0 || failed(j->path);
}

bool journal_close(struct journal *j)
{
    journal_forget(j);
    return !j->kept || close(j->file) == 0 || failed(j->path);
}
