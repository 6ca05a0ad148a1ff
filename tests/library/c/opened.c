/* SPDX-License-Identifier: MIT OR Apache-2.0 */
/* Opens the file FILE by rrdi_open, runs each line of standard input as a call of its own on the open file, and closes
   the file. After the opening and after each call it prints the number of the fault and whether another program could
   lock the file then: `held` or `free`; after the end, only the latter. A line that begins with `+` is a batch of the
   rest of the line.

   The program's own calls bypass the C library. In the log of between.c a pause of N nanoseconds ends the call with the
   number N, and that of the opening is 1. */
#define _GNU_SOURCE
#include <fcntl.h>
#include <stdio.h>
#include <string.h>
#include <sys/file.h>
#include <sys/syscall.h>
#include <time.h>
#include <unistd.h>

#include "rrdi.h"

static uint8_t lines[1 << 20], output[1 << 20];
static struct rrdi_answer answer;
static uint64_t refused[16];

static void put(const char *text) {
    if (syscall(SYS_write, 1, text, strlen(text)) < 0)
        _exit(3);
}

/* Prints whether another program could lock the file, and marks the end of a call in the log. */
static void tell(const char *path) {
    static long number;
    struct timespec length = {0, ++number}, left;
    int other = syscall(SYS_openat, AT_FDCWD, path, O_RDONLY | O_CLOEXEC, 0);
    put(syscall(SYS_flock, other, LOCK_EX | LOCK_NB) ? "held\n" : "free\n");
    syscall(SYS_close, other);
    nanosleep(&length, &left);
}

static void tell_fault(const char *path) {
    char text[16];
    snprintf(text, sizeof text, "%u ", answer.fault);
    put(text);
    tell(path);
}

static void run(struct rrdi_file *opened, uint8_t *line, size_t length) {
    if (*line == '+') {
        rrdi_batch_open(opened, line + 1, length - 1, 0, output, sizeof output, refused, 16, &answer);
        return;
    }
    for (size_t at = 0; at < length; at++)
        if (line[at] == ' ')
            line[at] = 0;
    rrdi_run_open(opened, line, length, 0, output, sizeof output, &answer);
}

/* Reads standard input to its end, which may come in parts. Returns the number of bytes. */
static long read_lines(void) {
    long size = 0, more;
    while ((more = syscall(SYS_read, 0, lines + size, sizeof lines - size)) > 0)
        size += more;
    return more < 0 ? -1 : size;
}

int main(int count, char **arguments) {
    struct rrdi_file opened = {0};
    long size = read_lines();
    if (count != 2 || size < 0)
        return 2;
    const char *path = arguments[1];
    rrdi_open(path, strlen(path), 0, false, &opened, output, sizeof output, &answer);
    tell_fault(path);
    for (uint8_t *line = lines, *end; (end = memchr(line, '\n', lines + size - line)); line = end + 1) {
        run(&opened, line, end - line);
        tell_fault(path);
    }
    rrdi_close(&opened);
    tell(path);
    return 0;
}
