/*
 * For the host linked with write and fsync wrapped: kills the program at its call number KILL_AT of them, counted from 1, a
 * write after KILL_TORN of its bytes. Nothing is synced, since a killed program loses nothing that it wrote.
 */
#include <signal.h>
#include <stdlib.h>
#include <unistd.h>

ssize_t __real_write(int file, const void *bytes, size_t count);
ssize_t __wrap_write(int file, const void *bytes, size_t count);
int __wrap_fsync(int file);

static size_t number(const char *name)
{
    const char *text = getenv(name);
    return text == NULL ? 0 : strtoull(text, NULL, 10);
}

/* Whether this is the call at which the program is killed. */
static int is_last(void)
{
    static size_t calls;
    return ++calls == number("KILL_AT");
}

ssize_t __wrap_write(int file, const void *bytes, size_t count)
{
    if (!is_last())
        return __real_write(file, bytes, count);
    if (__real_write(file, bytes, number("KILL_TORN") % (count + 1)) >= 0)
        raise(SIGKILL);
    return -1;
}

int __wrap_fsync(int file)
{
    (void)file;
    if (is_last())
        raise(SIGKILL);
    return 0;
}
