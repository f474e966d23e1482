/*
 * naga_opt: passes over shader modules in the JSON that naga 30.0.1 writes.
 *
 * Link libnaga_opt.a, or libnaga_capi.a and after it liblibc_c.a of Rattle's kit.
 *
 * A text is some bytes and their number. No text ends in a null byte, or begins with a byte order mark.
 *
 * A pointer may be null where the length after it is 0. Calls through a pointer to a function, and calls from other
 * languages, take no null pointer. What is read and what is written must not overlap, no other thread may write it
 * during the call, and each length is at most PTRDIFF_MAX. Several threads may make calls at once. The calls allocate
 * by malloc, so none may be made in a signal handler or in the forked child of a process with threads.
 *
 * A negative answer is a naga_opt_code. Then the message of the fault, which naga_opt prints behind `naga_opt: `, is in
 * `message`, in UTF-8. It is cut after the last whole character that fits. The bytes behind it are unchanged, so fill
 * the buffer with zeros to know where it ends. If the answer is not negative, `message` is unchanged.
 */
#ifndef NAGA_OPT_H
#define NAGA_OPT_H

#include <stddef.h>
#include <stdint.h>
#include <stdlib.h>

#ifdef __cplusplus
extern "C" {
#endif

/* The version of the functions that this header declares. */
#define NAGA_OPT_VERSION 3

/* Why a call has no answer. Later versions may have more codes. */
enum naga_opt_code {
    /* A pass has another name than `cull`, `close`, `close-naga`, `compact`, `compact-keep-unused` and `restrict`. */
    NAGA_OPT_UNKNOWN_PASS = -1,
    /* The text or the list of passes is not UTF-8. */
    NAGA_OPT_NOT_UTF8 = -2,
    /* The text is not JSON, or its lists and objects are nested more than 127 deep. */
    NAGA_OPT_NOT_JSON = -3,
    /* The JSON is not what naga writes for a module, or two types are equal. */
    NAGA_OPT_NOT_A_MODULE = -4,
    /* A handle of the module is not valid. */
    NAGA_OPT_INVALID_HANDLE = -5,
    /* The module that the passes made has no JSON, or one that is nested too deep. */
    NAGA_OPT_NO_JSON = -6,
    /* An allocation failed. */
    NAGA_OPT_OUT_OF_MEMORY = -7,
    /* `restrict` cannot clamp the accesses of a function. */
    NAGA_OPT_NOT_RESTRICTED = -9
};

/*
 * Runs passes on a module, in the order in which they are named, and writes its JSON into the first bytes of `out`.
 *
 * The names are separated by commas, as in `cull, close, compact`. White space around a name does not count.
 *
 * Returns the length of the JSON, or a code. If the length is greater than that of `out`, nothing is written: so a call
 * with an empty `out` returns the length that is needed. Nothing is written into `out` if the answer is a code, and the
 * bytes behind the JSON are unchanged.
 */
ptrdiff_t naga_opt_run(const uint8_t *text, size_t text_length, const char *passes, size_t passes_length,
                       uint8_t *out, size_t out_length, uint8_t *message, size_t message_length);

/* A text in memory that the library has allocated, and its length. */
struct naga_opt_answer {
    uint8_t *text;
    size_t length;
};

/*
 * Runs passes on a module as naga_opt_run does, but allocates the memory for its JSON, and writes where it is, and its
 * length, into `*answer`. So this needs one call, where naga_opt_run needs one for the length and one for the JSON.
 *
 * Returns the length of the JSON, which is never 0, or a code. With a code, `*answer` is an empty text.
 *
 * The memory is then the caller's, who frees it by naga_opt_free. What `*answer` was before is not read and not freed.
 * The calls through a pointer to a function, and those from other languages, must set it to an empty text before, whose
 * pointer is not null. With a code, they leave it unchanged.
 */
ptrdiff_t naga_opt_run_new(const uint8_t *text, size_t text_length, const char *passes, size_t passes_length,
                           struct naga_opt_answer *answer, uint8_t *message, size_t message_length);

/*
 * Frees the memory of an answer. Each answer must be freed once, and its text must not be used after that. An empty one
 * has no memory, and may be freed at any time.
 *
 * The library allocates by malloc, so other languages call free, unless the length is 0.
 */
static inline void naga_opt_free(struct naga_opt_answer answer)
{
    if (answer.length)
        free(answer.text);
}

/*
 * Checks a module: that each jump is allowed where it is, that each value that is used was computed, and that each
 * value is used at its type. Writes the report into the first bytes of `out`, and the number of faults into `*faults`.
 *
 * Returns the length of the report, with or without faults, or a code. The report is what `naga_opt --check` prints: a
 * line for each fault, or `no faults`, and then the lines of a summary. Each line ends in a newline. The answer and
 * `out` are as those of naga_opt_run. `*faults` is written even if the report does not fit, but not with a code.
 */
ptrdiff_t naga_opt_check(const uint8_t *text, size_t text_length, uint8_t *out, size_t out_length, size_t *faults,
                         uint8_t *message, size_t message_length);

/*
 * Writes a module as readable text into the first bytes of `out`. The answer and `out` are as those of naga_opt_run.
 */
ptrdiff_t naga_opt_text(const uint8_t *text, size_t text_length, uint8_t *out, size_t out_length,
                        uint8_t *message, size_t message_length);

/* Returns NAGA_OPT_VERSION as it was when the library was built. */
uint32_t naga_opt_version(void);

/* The same calls, in which a pointer may be null where the length after it is 0. */

static inline ptrdiff_t naga_opt_run_or_null(const uint8_t *text, size_t text_length, const char *passes,
                                             size_t passes_length, uint8_t *out, size_t out_length, uint8_t *message,
                                             size_t message_length)
{
    uint8_t none = 0;
    return naga_opt_run(text_length ? text : &none, text_length, passes_length ? passes : "", passes_length,
                        out_length ? out : &none, out_length, message_length ? message : &none, message_length);
}

static inline ptrdiff_t naga_opt_run_new_or_null(const uint8_t *text, size_t text_length, const char *passes,
                                                 size_t passes_length, struct naga_opt_answer *answer,
                                                 uint8_t *message, size_t message_length)
{
    static uint8_t empty;
    uint8_t none = 0;
    answer->text = &empty;
    answer->length = 0;
    return naga_opt_run_new(text_length ? text : &none, text_length, passes_length ? passes : "", passes_length, answer,
                            message_length ? message : &none, message_length);
}

static inline ptrdiff_t naga_opt_check_or_null(const uint8_t *text, size_t text_length, uint8_t *out,
                                               size_t out_length, size_t *faults, uint8_t *message,
                                               size_t message_length)
{
    uint8_t none = 0;
    return naga_opt_check(text_length ? text : &none, text_length, out_length ? out : &none, out_length, faults,
                          message_length ? message : &none, message_length);
}

static inline ptrdiff_t naga_opt_text_or_null(const uint8_t *text, size_t text_length, uint8_t *out, size_t out_length,
                                              uint8_t *message, size_t message_length)
{
    uint8_t none = 0;
    return naga_opt_text(text_length ? text : &none, text_length, out_length ? out : &none, out_length,
                         message_length ? message : &none, message_length);
}

#define naga_opt_run(text, text_length, passes, passes_length, out, out_length, message, message_length) \
    naga_opt_run_or_null(text, text_length, passes, passes_length, out, out_length, message, message_length)
#define naga_opt_run_new(text, text_length, passes, passes_length, answer, message, message_length) \
    naga_opt_run_new_or_null(text, text_length, passes, passes_length, answer, message, message_length)
#define naga_opt_check(text, text_length, out, out_length, faults, message, message_length) \
    naga_opt_check_or_null(text, text_length, out, out_length, faults, message, message_length)
#define naga_opt_text(text, text_length, out, out_length, message, message_length) \
    naga_opt_text_or_null(text, text_length, out, out_length, message, message_length)

#ifdef __cplusplus
}
#endif

#endif
