/*
 * Reads a module from standard input, and writes to standard output what naga_opt writes:
 *
 *     optimize --passes LIST    the JSON of what the passes make of it
 *     optimize --check          the report on it; the exit status is 1 if it has a fault
 *     optimize --text           its readable text
 *
 * The exit status is 1 after an error, whose message goes to standard error, 2 for other arguments, and 3 if the library
 * has another version than the header. Notes on the passes are not written.
 */
#include "naga_opt.h"

#include <stdio.h>
#include <stdlib.h>
#include <string.h>

static char message[100000];

/* Prints the message of an error, and returns the exit status. */
static int fail(const char *reason)
{
    fprintf(stderr, "naga_opt: %s\n", reason);
    return 1;
}

/* Returns what standard input has, and sets its length. Returns NULL if an allocation fails. */
static uint8_t *read_all(size_t *length)
{
    size_t capacity = 1 << 16, count;
    uint8_t *text = malloc(capacity), *larger;
    *length = 0;
    while (text && (count = fread(text + *length, 1, capacity - *length, stdin)) > 0) {
        *length += count;
        if (*length == capacity) {
            larger = realloc(text, capacity *= 2);
            if (!larger)
                free(text);
            text = larger;
        }
    }
    return text;
}

/* Writes a text to standard output. Returns whether that fails. */
static int write_out(const uint8_t *text, size_t length)
{
    return fwrite(text, 1, length, stdout) != length || fflush(stdout) != 0;
}

/* Writes what the passes make of a module. */
static int run(const uint8_t *text, size_t length, const char *passes)
{
    struct naga_opt_answer answer;
    if (naga_opt_run_new(text, length, passes, strlen(passes), &answer, (uint8_t *)message, sizeof message - 1) < 0)
        return fail(message);
    int failed = write_out(answer.text, answer.length) || write_out((const uint8_t *)"\n", 1);
    naga_opt_free(answer);
    return failed;
}

/* Calls naga_opt_check or naga_opt_text. */
static ptrdiff_t view(int checks, const uint8_t *text, size_t length, uint8_t *out, size_t out_length, size_t *faults)
{
    if (checks)
        return naga_opt_check(text, length, out, out_length, faults, (uint8_t *)message, sizeof message - 1);
    return naga_opt_text(text, length, out, out_length, (uint8_t *)message, sizeof message - 1);
}

/* Writes the report on a module, or its readable text. */
static int show(int checks, const uint8_t *text, size_t length)
{
    size_t faults = 0, size;
    uint8_t *out;
    /* The first call returns how much memory the second one needs. */
    ptrdiff_t needed = view(checks, text, length, NULL, 0, &faults);
    if (needed < 0)
        return fail(message);
    size = (size_t)needed;
    out = malloc(size + 1);
    if (!out)
        return fail("out of memory");
    if (view(checks, text, length, out, size, &faults) < 0) {
        free(out);
        return fail(message);
    }
    int failed = write_out(out, size) || faults > 0;
    free(out);
    return failed;
}

int main(int count, char **arguments)
{
    size_t length;
    int status = 2;
    if (naga_opt_version() != NAGA_OPT_VERSION)
        return 3;
    uint8_t *text = read_all(&length);
    if (!text)
        return fail("out of memory");
    if (count == 3 && !strcmp(arguments[1], "--passes"))
        status = run(text, length, arguments[2]);
    else if (count == 2 && !strcmp(arguments[1], "--check"))
        status = show(1, text, length);
    else if (count == 2 && !strcmp(arguments[1], "--text"))
        status = show(0, text, length);
    free(text);
    return status;
}
