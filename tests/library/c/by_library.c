/* SPDX-License-Identifier: MIT OR Apache-2.0 */
/* A program that takes the arguments of rrdi and runs the command by the library, so that the tests of rrdi can try the
   library. Its own reads of standard input and writes of output bypass the C library, so that the library between.c
   sees only the calls of librrdi. The program allocates nothing.

   RRDI_WAIT and RRDI_SYNC=1 have the same meaning as for rrdi. With NOW=N the present time is N. With IN_MEMORY=1 the program reads FILE itself, lets the
   library run the command on the bytes, and writes the new file. With OPEN=1 it opens FILE by rrdi_open, runs the
   command on the open file, and closes it; with NUMBERS=1 too, an update by one sample goes by rrdi_update_open. With
   ROOM=N the first call has room for N bytes of output, and the second call for all bytes. With STACK=N the calls run
   in a thread with a stack of N bytes, and the file STACK_USED gets the number of bytes that were used. */
#define _GNU_SOURCE
#include <errno.h>
#include <fcntl.h>
#include <pthread.h>
#include <stdio.h>
#include <stdlib.h>
#include <string.h>
#include <sys/mman.h>
#include <sys/syscall.h>
#include <time.h>
#include <unistd.h>

#include "rrdi.h"

#define MOST (64 << 20)
/* A file of 8,000,000 cells has 128 MB. */
#define MOST_FILE (256 << 20)

static uint8_t input[MOST], output[MOST], file[MOST_FILE], new_file[MOST_FILE], words[1 << 20];
static uint64_t refused_lines[1 << 16];
static size_t output_room = sizeof output;

static void put(int to, const void *bytes, size_t size) {
    const char *from = bytes;
    while (size) {
        ssize_t count = syscall(SYS_write, to, from, size);
        if (count <= 0)
            _exit(1);
        from += count;
        size -= count;
    }
}

static ssize_t get(int from, uint8_t *bytes, size_t size) {
    size_t had = 0;
    while (had < size) {
        ssize_t count = syscall(SYS_read, from, bytes + had, size - had);
        if (count < 0)
            return -1;
        if (count == 0)
            break;
        had += count;
    }
    return had;
}

static int fail(const void *text, size_t length, int status) {
    put(2, "ERROR: ", 7);
    put(2, text, length);
    put(2, "\n", 1);
    return status;
}

static uint64_t number(const char *name, uint64_t otherwise) {
    const char *text = getenv(name);
    return text && *text ? strtoull(text, NULL, 10) : otherwise;
}

/* Reads FILE, for a command in memory. */
static bool take(const char *path, size_t *length) {
    int from = syscall(SYS_openat, AT_FDCWD, path, O_RDONLY | O_CLOEXEC, 0);
    if (from < 0)
        return false;
    ssize_t count = get(from, file, sizeof file);
    syscall(SYS_close, from);
    *length = count < 0 ? 0 : count;
    return count >= 0;
}

static void keep(const char *path, size_t length) {
    int to = syscall(SYS_openat, AT_FDCWD, path, O_WRONLY | O_CREAT | O_TRUNC | O_CLOEXEC, 0666);
    if (to < 0)
        _exit(1);
    put(to, new_file, length);
    syscall(SYS_close, to);
}

static struct rrdi_answer answer;

/* Whether the words are a command that makes a database, for which there may be nothing to open. */
static bool is_create(size_t length) {
    return length >= 6 && !memcmp(words, "create", 6) && (length == 6 || !words[6]);
}

/* Reads digits. Returns the byte after them, or null if they are none or too many. */
static const char *read_digits(const char *at, uint64_t *read) {
    size_t count = strspn(at, "0123456789");
    errno = 0;
    *read = strtoull(at, NULL, 10);
    return count == 0 || errno ? NULL : at + count;
}

/* Reads a value of a sample. Returns the byte after it, or null if rrdi_value has no such value. */
static const char *read_value(const char *at, struct rrdi_value *value) {
    *value = (struct rrdi_value){0};
    if (*at == 'U')
        return at + 1;
    value->kind = RRDI_WHOLE;
    value->is_negative = *at == '-';
    at = read_digits(at + value->is_negative, &value->units);
    if (!at || *at != '.')
        return at;
    value->kind = RRDI_DECIMAL;
    size_t count = strspn(++at, "0123456789");
    for (size_t place = 0; place < 6; place++)
        value->millionths = 10 * value->millionths + (place < count ? (uint32_t)(at[place] - '0') : 0);
    return count == 0 || count > 6 ? NULL : at + count;
}

static struct rrdi_value sample[1 << 16];

/* Reads an update by one sample. Returns the number of its values; 0 if the words are no such update. */
static size_t read_sample(size_t length, uint64_t *time) {
    static char text[sizeof words + 1];
    size_t count = 0;
    if (length < 8 || memcmp(words, "update", 7) || memchr(words + 7, 0, length - 7))
        return 0;
    memcpy(text, words + 7, length - 7);
    text[length - 7] = 0;
    const char *at = read_digits(text, time);
    while (at && *at == ':' && count < sizeof sample / sizeof *sample)
        at = read_value(at + 1, &sample[count++]);
    return at && !*at ? count : 0;
}

/* Runs a command on the open file, in numbers if that is asked for and if there is such a call. */
static void run_opened(struct rrdi_file *opened, size_t length, uint64_t now) {
    uint64_t time;
    size_t count = number("NUMBERS", 0) == 1 ? read_sample(length, &time) : 0;
    if (count > 0)
        rrdi_update_open(opened, time, sample, count, output, output_room, &answer);
    else
        rrdi_run_open(opened, words, length, now, output, output_room, &answer);
}

/* One call on a file that stays open for the call. Returns false if there is no such file, if it is to be made, or if
   its file system has no locks. */
static bool call_open(const char *name, size_t name_length, bool is_batch, size_t length, uint64_t now,
                      uint64_t wait, bool syncs) {
    struct rrdi_file opened = {0};
    if (!is_batch && is_create(length))
        return false;
    rrdi_open(name, name_length, wait, syncs, &opened, output, output_room, &answer);
    if (answer.fault)
        return answer.fault != RRDI_CANNOT_OPEN || (answer.system_error != ENOENT && answer.system_error != EINVAL);
    if (is_batch)
        rrdi_batch_open(&opened, input, length, now, output, output_room, refused_lines,
                        sizeof refused_lines / sizeof *refused_lines, &answer);
    else
        run_opened(&opened, length, now);
    rrdi_close(&opened);
    return true;
}

/* One call: of lines, or of words; on the file at a path, or on its bytes. */
static void call(const char *path, bool is_batch, size_t length, bool has_file, size_t file_length, bool in_memory) {
    uint64_t now = number("NOW", time(NULL)), wait = 1000 * number("RRDI_WAIT", 5);
    bool syncs = number("RRDI_SYNC", 0) == 1;
    const char *name = path;
    size_t name_length = path ? strlen(path) : 0, refused_room = sizeof refused_lines / sizeof *refused_lines;
    if (!in_memory && number("OPEN", 0) == 1 && call_open(name, name_length, is_batch, length, now, wait, syncs))
        return;
    if (in_memory && is_batch)
        rrdi_batch(has_file, file, file_length, input, length, now, new_file, sizeof new_file, output, output_room,
                   refused_lines, refused_room, &answer);
    else if (in_memory)
        rrdi_run(has_file, file, file_length, words, length, now, new_file, sizeof new_file, output, output_room,
                 &answer);
    else if (is_batch)
        rrdi_batch_file(name, name_length, input, length, now, wait, syncs, output, output_room, refused_lines,
                        refused_room, &answer);
    else
        rrdi_run_file(name, name_length, words, length, now, wait, syncs, output, output_room, &answer);
}

/* ---- a call on a stack of its own, filled with a pattern that shows afterwards how much of the stack was used */

#define PAINT 0xa5

struct task {
    const char *path;
    bool is_batch, has_file, in_memory;
    size_t length, file_length;
};

static void *run_task(void *of) {
    struct task *task = of;
    call(task->path, task->is_batch, task->length, task->has_file, task->file_length, task->in_memory);
    return NULL;
}

static void report_stack(const uint8_t *stack, size_t size) {
    const char *path = getenv("STACK_USED");
    char text[32];
    size_t free = 0;
    while (free < size && stack[free] == PAINT)
        free++;
    int to = path ? syscall(SYS_openat, AT_FDCWD, path, O_WRONLY | O_CREAT | O_TRUNC | O_CLOEXEC, 0666) : -1;
    if (to >= 0)
        put(to, text, snprintf(text, sizeof text, "%zu\n", size - free));
}

static void call_on_stack(struct task *task) {
    size_t size = number("STACK", 0), guard = 1 << 16;
    if (!size) {
        run_task(task);
        return;
    }
    uint8_t *room = mmap(NULL, size + guard, PROT_NONE, MAP_PRIVATE | MAP_ANONYMOUS, -1, 0), *stack = room + guard;
    pthread_attr_t attributes;
    pthread_t thread;
    if (room == MAP_FAILED || mprotect(stack, size, PROT_READ | PROT_WRITE))
        _exit(3);
    memset(stack, PAINT, size);
    pthread_attr_init(&attributes);
    if (pthread_attr_setstack(&attributes, stack, size) || pthread_create(&thread, &attributes, run_task, task) ||
        pthread_join(thread, NULL))
        _exit(3);
    report_stack(stack, size);
}

/* ---- the answer */

/* Checks the fields of the answer besides the fault, and returns a description of a wrong field. */
static const char *wrong(bool is_batch, bool in_memory) {
    size_t count = answer.refused < sizeof refused_lines / sizeof *refused_lines
                       ? answer.refused
                       : sizeof refused_lines / sizeof *refused_lines,
           lines = 0;
    if (answer.fault && answer.is_changed)
        return "a file is changed in spite of a fault";
    bool has_reason =
        answer.fault == RRDI_CANNOT_OPEN || answer.fault == RRDI_CANNOT_WRITE || answer.fault == RRDI_READ;
    if (answer.system_error && !has_reason)
        return "an error of the system without a call that failed";
    if (!answer.system_error && has_reason && !in_memory)
        return "a call that failed without an error of the system";
    if (!in_memory && answer.file_length)
        return "a length of a file that is not in memory";
    for (size_t at = 0; at < count; at++)
        if (refused_lines[at] <= (at ? refused_lines[at - 1] : 0))
            return "numbers of refused lines that are not in order";
    if (!answer.fault && !answer.refused && answer.explanation_length)
        return "an explanation of what is not refused";
    for (size_t at = 0; at < answer.explanation_length; at++)
        if (at >= sizeof answer.explanation || (answer.explanation[at] < ' ' && !(is_batch && answer.explanation[at] == '\n')))
            return "a control character in an explanation, or too long a one";
    if (!is_batch)
        return answer.refused ? "a refused line of a command" : NULL;
    for (size_t at = 0; at < answer.output_length; at++) {
        bool is_begin = at == 0 || output[at - 1] == '\n';
        if (is_begin && answer.output_length - at >= 7 && !memcmp(output + at, "ERROR: ", 7))
            lines++;
    }
    if (!answer.fault && lines != answer.refused)
        return "another number of refused lines than of their texts";
    return NULL;
}

/* Prints the explanation, as rrdi does: that of a command, or those of refused lines, has no line feed at its end, or one. */
static void explain(void) {
    const uint8_t *from = answer.explanation, *end = from + answer.explanation_length;
    while (from < end) {
        const uint8_t *feed = memchr(from, '\n', end - from);
        size_t length = (feed ? feed : end) - from;
        put(2, "rrdi: ", 6);
        put(2, from, length);
        put(2, "\n", 1);
        from += length + 1;
    }
}

static int end(const char *path, bool is_batch, bool in_memory) {
    const char *bug = wrong(is_batch, in_memory);
    if (bug) {
        fail(bug, strlen(bug), 3);
        return 3;
    }
    if (in_memory && answer.is_changed && path)
        keep(path, answer.file_length);
    bool has_text =
        answer.fault && !(is_batch && (answer.fault == RRDI_CANNOT_WRITE || answer.fault == RRDI_NO_MEMORY));
    if (has_text) {
        fail(output, answer.output_length, answer.fault == RRDI_USAGE ? 2 : 1);
        explain();
        if (answer.fault == RRDI_USAGE)
            put(2, USAGE, strlen(USAGE));
        return answer.fault == RRDI_USAGE ? 2 : 1;
    }
    put(1, output, answer.output_length);
    if (answer.fault == RRDI_CANNOT_WRITE) {
        fail("cannot write", 12, 1);
        explain();
        return 1;
    }
    if (answer.fault == RRDI_NO_MEMORY)
        return fail("out of memory", 13, 1);
    explain();
    return answer.refused ? 1 : 0;
}

static int usage(void) {
    fail("usage", 5, 2);
    put(2, USAGE, strlen(USAGE));
    return 2;
}

int main(int count, char **arguments) {
    bool is_batch = count > 1 && !strcmp(arguments[1], "batch"), in_memory = number("IN_MEMORY", 0) == 1;
    const char *path = count > 2 ? arguments[2] : NULL;
    if (count < 2 || (path && path[0] == '-') || (is_batch && count > 3) || (!is_batch && !path))
        return usage();
    ssize_t length = 0;
    size_t file_length = 0;
    if (is_batch && (length = get(0, input, sizeof input)) < 0)
        return fail("read failed", 11, 1);
    for (int at = 1; !is_batch && at < count; at++) {
        if (at == 2)
            continue;
        size_t size = strlen(arguments[at]);
        if (length)
            words[length++] = 0;
        memcpy(words + length, arguments[at], size);
        length += size;
    }
    bool has_file = path && in_memory && take(path, &file_length);
    in_memory = in_memory || !path;
    struct task task = {path, is_batch, has_file, in_memory, length, file_length};
    output_room = number("ROOM", sizeof output);
    call_on_stack(&task);
    bool is_short = answer.fault == RRDI_NO_ROOM || answer.is_cut;
    if (is_short && (answer.output_needed <= output_room || answer.output_length))
        return fail("no room where there is room", 27, 3);
    if (is_short && answer.is_changed)
        return fail("a file is changed in spite of too little room", 45, 3);
    output_room = sizeof output;
    if (is_short)
        call_on_stack(&task);
    return end(path, is_batch, in_memory);
}
