/* SPDX-License-Identifier: MIT OR Apache-2.0 */
/* What the tests of rrdi.h have in common: an answer and its output, an open file, the count of
   the checks, a forked child, and files. */
#ifndef CHECKS_H
#define CHECKS_H

#include <signal.h>
#include <stdio.h>
#include <stdlib.h>
#include <string.h>
#include <sys/resource.h>
#include <sys/stat.h>
#include <sys/wait.h>
#include <unistd.h>

#include "rrdi.h"

#define WORDS(text) (const uint8_t *)(text), sizeof(text) - 1
/* A path of a call, with its length. */
#define NAME(text) (text), sizeof(text) - 1
/* The words of a call, with their length. */
struct words {
    const uint8_t *bytes;
    size_t length;
};

#define CREATE "create\0--step\00010\0--start\0000\0DS:g:GAUGE:100:U:U\0RRA:LAST:0.5:1:4"

static int count, wrong;
static uint8_t output[1 << 16];
static struct rrdi_answer answer;
static struct rrdi_file opened;

static inline bool want(bool is_right, const char *what) {
    count++;
    if (!is_right) {
        wrong++;
        printf("%s: fault %u, error %u, %s%srefused %llu, file %llu, output %llu of %llu, at %llu\n", what, answer.fault,
               answer.system_error, answer.is_changed ? "changed, " : "", answer.is_cut ? "cut, " : "",
               (unsigned long long)answer.refused, (unsigned long long)answer.file_length,
               (unsigned long long)answer.output_length, (unsigned long long)answer.output_needed,
               (unsigned long long)answer.at);
    }
    return is_right;
}

/* Whether there was no room for an output of so many bytes, by this fault: nothing was written, and nothing changed. */
static inline bool lacks_room(uint32_t fault, size_t needed) {
    return answer.fault == fault && answer.is_cut && !answer.output_length && answer.output_needed == needed &&
           !answer.is_changed;
}

static inline bool gave(uint32_t fault, bool is_changed, const char *text) {
    return answer.fault == fault && answer.is_changed == is_changed && !answer.is_cut &&
           answer.output_length == strlen(text) && answer.output_needed == strlen(text) &&
           !memcmp(output, text, strlen(text));
}

/* Whether the explanation in the answer begins with a text; with an empty text, whether there is none. */
static inline bool explains(const char *text) {
    size_t length = strlen(text);
    return *text ? answer.explanation_length >= length && !memcmp(answer.explanation, text, length)
                 : !answer.explanation_length;
}

/* Whether the call could not open or read its file, by this error of the system. */
static inline bool cannot_open(int error) {
    return gave(RRDI_CANNOT_OPEN, false, "cannot open") && answer.system_error == (uint32_t)error;
}

static inline bool cannot_write(int error) {
    return gave(RRDI_CANNOT_WRITE, false, "cannot write") && answer.system_error == (uint32_t)error;
}

static inline void run_file(const char *path, const uint8_t *words, size_t words_length, uint64_t wait) {
    rrdi_run_file(path, strlen(path), words, words_length, 0, wait, false, output, sizeof output, &answer);
}

static inline void open_file(const char *path) {
    rrdi_open(path, strlen(path), 0, false, &opened, output, sizeof output, &answer);
}

static inline void run_open(const uint8_t *words, size_t words_length) {
    rrdi_run_open(&opened, words, words_length, 0, output, sizeof output, &answer);
}

/* Makes a call while no file may be longer than so many bytes. */
static inline void with_limit(size_t size, void (*call)(void)) {
    struct rlimit limit, less;
    getrlimit(RLIMIT_FSIZE, &limit);
    less = (struct rlimit){size, limit.rlim_max};
    signal(SIGXFSZ, SIG_IGN);
    setrlimit(RLIMIT_FSIZE, &less);
    call();
    setrlimit(RLIMIT_FSIZE, &limit);
}

/* Calls a function in a forked child, whose checks go on counting. Another program takes the child's place, so that valgrind
   does not take what it has of its parent's memory for lost. */
static inline void in_child(void (*call)(void)) {
    int ends[2], found[2] = {0, 1}, status;
    if (pipe(ends))
        exit(3);
    fflush(stdout);
    pid_t child = fork();
    if (!child) {
        count = wrong = 0;
        call();
        found[0] = count;
        found[1] = wrong;
        fflush(stdout);
        if (write(ends[1], found, sizeof found) == sizeof found)
            execlp("true", "true", (char *)NULL);
        _exit(1);
    }
    close(ends[1]);
    want(read(ends[0], found, sizeof found) == sizeof found && waitpid(child, &status, 0) == child && !status,
         "a child comes to its end");
    close(ends[0]);
    count += found[0];
    wrong += found[1];
}

static inline size_t held(const char *path) {
    struct stat found;
    return stat(path, &found) ? 0 : (size_t)found.st_size;
}

static inline void put(const char *path, const void *bytes, size_t size) {
    FILE *to = fopen(path, "wb");
    if (!to || fwrite(bytes, 1, size, to) != size || fclose(to))
        exit(3);
}

static inline bool has_bytes(const char *path, const uint8_t *bytes, size_t size) {
    static uint8_t found[1 << 16];
    FILE *from = fopen(path, "rb");
    size_t got = from ? fread(found, 1, sizeof found, from) : 0;
    if (from)
        fclose(from);
    return got == size && !memcmp(found, bytes, size);
}

static inline size_t bytes_of(const char *path, uint8_t *bytes) {
    FILE *from = fopen(path, "rb");
    size_t got = from ? fread(bytes, 1, 1 << 16, from) : 0;
    if (from)
        fclose(from);
    return got;
}

/* The bytes for which an open file stands, while changes wait in its log: a batch brings those of a copy into place. */
static inline size_t stands_for(const char *path, uint8_t *bytes) {
    static uint8_t kept_output[sizeof output];
    uint64_t refused[1];
    struct rrdi_answer kept = answer;
    memcpy(kept_output, output, sizeof output);
    put("copy", bytes, bytes_of(path, bytes));
    rrdi_batch_file(NAME("copy"), WORDS("last\n"), 0, 0, false, output, sizeof output, refused, 1, &answer);
    memcpy(output, kept_output, sizeof output);
    answer = kept;
    return bytes_of("copy", bytes);
}

/* Prints how much was tried. Returns the status of the program. */
static inline int end(void) {
    printf("%d tests: %d wrong\n", count, wrong);
    return wrong != 0;
}

#endif
