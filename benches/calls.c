/* SPDX-License-Identifier: MIT OR Apache-2.0 */
/* Takes the times of calls of the C library and of librrd.

       calls path|open|numbers|librrd update|fetch FILES TURNS FIRST SOURCES SAMPLES

   path is rrdi_run_file, open is rrdi_run_open, numbers is rrdi_update_open or rrdi_fetch_open. In each turn the program
   passes SAMPLES samples of SOURCES sources, ten seconds apart, to each of the files 0, 1, .. of the current folder by one
   call, or fetches SAMPLES rows of each. The first sample is at FIRST, and in the next turn behind the last one; what is
   fetched stays the same. The program prints the median of a call in microseconds. The first turn does not count, because
   the first change of an open file is another work than the next ones. */
#include <stdio.h>
#include <stdlib.h>
#include <string.h>
#include <sys/resource.h>
#include <time.h>

#ifdef LIBRRD
#include <rrd.h>
#endif

#include "rrdi.h"

#define STEP 10
#define MOST_SAMPLES 128
#define MOST_SOURCES 8

static const char *way;
static bool is_fetch;
static int sources, count;
static long first;

static char path[16], samples[MOST_SAMPLES][64];
static uint8_t words[8 + sizeof samples], output[1 << 16];
static size_t length;
static struct rrdi_value values[MOST_SAMPLES * MOST_SOURCES];
static struct rrdi_answer answer;

static void fail(const char *text) {
    fprintf(stderr, "calls: %s %s: %s\n", way, path, text);
    exit(1);
}

/* Writes the samples of a call, and the words of its command. */
static void spell(int file) {
    const char *given[MOST_SAMPLES + 1] = {"update"};
    if (is_fetch) {
        length = sprintf((char *)words, "fetch|AVERAGE|-r|%d|-s|%ld|-e|%ld", STEP, first, first + (long)STEP * count);
        for (char *at = (char *)words; (at = strchr(at, '|')); at++)
            *at = 0;
        return;
    }
    for (int at = 0; at < count; at++) {
        int size = sprintf(samples[at], "%ld", first + (long)STEP * at);
        for (int source = 0; source < sources; source++)
            size += sprintf(samples[at] + size, ":%d.5", (file + 7 * at + source) % 1000);
        given[at + 1] = samples[at];
    }
    length = rrdi_words(count + 1, given, words, sizeof words);
}

static void in_numbers(struct rrdi_file *open, int file) {
    struct rrdi_rows rows;
    if (is_fetch) {
        rrdi_fetch_open(open, RRDI_AVERAGE, STEP, first, first + (long)STEP * count, &rows, values,
                        MOST_SAMPLES * MOST_SOURCES, output, sizeof output, &answer);
        return;
    }
    for (int source = 0; source < sources; source++)
        values[source] = rrdi_double((file + source) % 1000 + 0.5);
    rrdi_update_open(open, first, values, sources, output, sizeof output, &answer);
}

static void by_librrd(void) {
#ifdef LIBRRD
    time_t start = first, end = first + (long)STEP * count;
    unsigned long step = STEP, columns = 0;
    const char *given[MOST_SAMPLES];
    char **names = NULL;
    rrd_value_t *data = NULL;
    for (int at = 0; at < count; at++)
        given[at] = samples[at];
    if (is_fetch ? rrd_fetch_r(path, "AVERAGE", &start, &end, &step, &columns, &names, &data)
                 : rrd_update_r(path, NULL, count, given))
        fail(rrd_get_error());
    for (unsigned long at = 0; at < columns; at++)
        rrd_freemem(names[at]);
    rrd_freemem(names);
    rrd_freemem(data);
#else
    fail("built without librrd");
#endif
}

static double now(void) {
    struct timespec time;
    clock_gettime(CLOCK_MONOTONIC, &time);
    return 1e6 * time.tv_sec + time.tv_nsec / 1e3;
}

/* Makes one call, and returns the microseconds that it took. A file that stays open is opened before its first call. */
static double call(struct rrdi_file *open, int file) {
    sprintf(path, "%d", file);
    spell(file);
    answer.fault = RRDI_OK;
    if ((*way == 'o' || *way == 'n') && !open->is_open)
        rrdi_open(path, strlen(path), 5000, false, open, output, sizeof output, &answer);
    double begin = now();
    if (*way == 'l')
        by_librrd();
    else if (*way == 'n')
        in_numbers(open, file);
    else if (*way == 'o')
        rrdi_run_open(open, words, length, 0, output, sizeof output, &answer);
    else
        rrdi_run_file(path, strlen(path), words, length, 0, 5000, false, output, sizeof output, &answer);
    double took = now() - begin;
    if (answer.fault)
        fail(rrdi_strerror(answer.fault));
    return took;
}

static int order(const void *one, const void *other) {
    double a = *(const double *)one, b = *(const double *)other;
    return (a > b) - (a < b);
}

int main(int arguments, char **given) {
    if (arguments != 8)
        return 2;
    way = given[1], is_fetch = *given[2] == 'f';
    int files = atoi(given[3]), turns = atoi(given[4]), done = 0;
    first = atol(given[5]), sources = atoi(given[6]), count = atoi(given[7]);
    if (files < 1 || turns < 2 || sources > MOST_SOURCES || count > MOST_SAMPLES)
        return 2;
    struct rlimit most;
    getrlimit(RLIMIT_NOFILE, &most);
    most.rlim_cur = most.rlim_max;
    setrlimit(RLIMIT_NOFILE, &most);
    struct rrdi_file *open = calloc(files, sizeof *open);
    double *took = calloc((size_t)files * turns, sizeof *took);
    for (int turn = 0; turn < turns; turn++) {
        for (int file = 0; file < files; file++)
            took[done++] = call(&open[file], file);
        first += is_fetch ? 0 : (long)STEP * count;
    }
    qsort(took + files, done - files, sizeof *took, order);
    printf("%.2f\n", took[files + (done - files) / 2]);
    return 0;
}
