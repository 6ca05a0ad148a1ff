/* SPDX-License-Identifier: MIT OR Apache-2.0 */
/* Writes each call of librrd's functions for recorders to the file that the variable CALLS names, as a line for
 * `rrdtool -`, and passes the call on to the next library. Load this library by LD_PRELOAD, before that library. */
#define _GNU_SOURCE
#include <dlfcn.h>
#include <stdio.h>
#include <stdlib.h>
#include <time.h>

static void note(const char *name, const char *path, const char *names, unsigned long step, time_t start, int count,
                 const char **words) {
    FILE *file = fopen(getenv("CALLS"), "a");
    if (file == NULL) abort();
    flockfile(file);
    fprintf(file, "%s %s", name, path);
    if (step > 0) fprintf(file, " --step %lu --start %lld", step, (long long)start);
    if (names != NULL) fprintf(file, " --template %s", names);
    for (int at = 0; at < count; at++) fprintf(file, " %s", words[at]);
    fprintf(file, "\n");
    funlockfile(file);
    fclose(file);
}

int rrd_create_r(const char *path, unsigned long step, time_t start, int count, const char **words) {
    int (*next)(const char *, unsigned long, time_t, int, const char **) = dlsym(RTLD_NEXT, "rrd_create_r");
    note("create", path, NULL, step, start, count, words);
    return next(path, step, start, count, words);
}

int rrd_update_r(const char *path, const char *names, int count, const char **words) {
    int (*next)(const char *, const char *, int, const char **) = dlsym(RTLD_NEXT, "rrd_update_r");
    note("update", path, names, 0, 0, count, words);
    return next(path, names, count, words);
}
