/*
 * The drill program under libFuzzer: the input goes to its standard input and to that of the reference's drill; both must
 * end with status 0 and print the same bytes. Neither is instrumented, so what the fuzzer follows is the output.
 * DRILL and REFERENCE_DRILL name the two programs.
 */
#define _GNU_SOURCE
#include <errno.h>
#include <stdbool.h>
#include <stdint.h>
#include <stdio.h>
#include <stdlib.h>
#include <string.h>
#include <sys/mman.h>
#include <sys/wait.h>
#include <unistd.h>

/* A drill prints at most 340 bytes. */
#define OUTPUT 512

struct output {
    char bytes[OUTPUT];
    size_t length;
};

/* libFuzzer takes these as coverage. */
__attribute__((section("__libfuzzer_extra_counters"))) static uint8_t counters[4096];

static void require(bool holds, const char *what)
{
    if (holds)
        return;
    fprintf(stderr, "drill: %s\n", what);
    abort();
}

static const char *program(const char *name)
{
    const char *path = getenv(name);
    require(path != NULL, "DRILL and REFERENCE_DRILL must name the programs");
    return path;
}

/* Runs in the child: the program reads the input from a file and prints into a pipe. */
static void become(const char *path, int input, const int ends[2])
{
    if (lseek(input, 0, SEEK_SET) == 0 && dup2(input, 0) == 0 && dup2(ends[1], 1) == 1) {
        close(ends[0]);
        close(ends[1]);
        execl(path, path, (char *)NULL);
    }
    _exit(127);
}

/* The fuzzer's own timer may interrupt a call, which is then made again. */
static void read_all(int end, struct output *out)
{
    ssize_t got;
    out->length = 0;
    while ((got = TEMP_FAILURE_RETRY(read(end, out->bytes + out->length, OUTPUT - out->length))) > 0)
        out->length += (size_t)got;
    require(out->length < OUTPUT, "the output is too long");
}

static void run(const char *path, int input, struct output *out)
{
    int ends[2], status = 0;
    require(pipe(ends) == 0, "no pipe");
    pid_t child = fork();
    require(child >= 0, "no process");
    if (child == 0)
        become(path, input, ends);
    close(ends[1]);
    read_all(ends[0], out);
    close(ends[0]);
    require(TEMP_FAILURE_RETRY(waitpid(child, &status, 0)) == child, "the program was not waited for");
    require(WIFEXITED(status) && WEXITSTATUS(status) == 0, "the program failed");
}

/* Every field of the output, by its place, is something new to the fuzzer. */
static void note(const struct output *out)
{
    unsigned place = 0, field = 0;
    for (size_t i = 0; i < out->length; i++) {
        char c = out->bytes[i];
        if (c == '\t' || c == '\n') {
            counters[(place * 251 + field) % sizeof counters] = 1;
            place++;
            field = 0;
        } else {
            field = (field * 31 + (unsigned char)c) % 251;
        }
    }
}

int LLVMFuzzerTestOneInput(const uint8_t *data, size_t size)
{
    static struct output drill, reference;
    int input = memfd_create("input", MFD_CLOEXEC);
    require(input >= 0 && write(input, data, size) == (ssize_t)size, "no input file");
    run(program("DRILL"), input, &drill);
    run(program("REFERENCE_DRILL"), input, &reference);
    close(input);
    require(drill.length == reference.length && memcmp(drill.bytes, reference.bytes, drill.length) == 0,
            "the programs print different bytes");
    note(&drill);
    return 0;
}
