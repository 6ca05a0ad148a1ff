/* SPDX-License-Identifier: MIT OR Apache-2.0 */
/* Creates a database at the path PATH by rrdi_create_new, and prints the number of the fault. As soon as the other file is there,
   somebody who may write the directory puts a link to the file VICTIM in its place. */
#define _GNU_SOURCE
#include <fcntl.h>
#include <stdarg.h>
#include <stdio.h>
#include <sys/syscall.h>
#include <unistd.h>

#include "checks.h"

static const char *victim;

int open(const char *path, int flags, ...) {
    va_list more;
    int descriptor, mode;
    va_start(more, flags);
    mode = flags & O_CREAT ? va_arg(more, int) : 0;
    va_end(more);
    descriptor = (int)syscall(SYS_openat, AT_FDCWD, path, flags, mode);
    if (descriptor >= 0 && victim && flags & O_EXCL && (unlink(path) || symlink(victim, path)))
        return -1;
    return descriptor;
}

int main(int count, char **arguments) {
    const char *path = count > 2 ? arguments[1] : "";
    victim = count > 2 ? arguments[2] : NULL;
    rrdi_create_new(path, strlen(path), WORDS(CREATE), 0, 0, true, output, sizeof output, &answer);
    printf("%u\n", answer.fault);
    return 0;
}
