/* SPDX-License-Identifier: MIT OR Apache-2.0 */
/* Tests the functions rrdi_db_.. of rrdi.h, rrdi_update_many, and what a program does wrongly: structs that nobody has
   filled, copies, null pointers, files that are closed twice, a fork, a create over a file that is open, a wait for a lock. Run the program in an empty folder; it prints each wrong result and the number of tests. */
#define _GNU_SOURCE
#include <errno.h>
#include <fcntl.h>
#include <sys/file.h>
#include <sys/syscall.h>
#include <sys/wait.h>
#include <time.h>
#include <unistd.h>

#include "checks.h"

#define DEFINITION "--step 10  --start 0 DS:g:GAUGE:100:U:U DS:c:COUNTER:100:U:U RRA:LAST:0.5:1:4 "
#define PATH "db.rrdi"
#define WAIT 300
#define TOLERANCE 100

static struct rrdi_db db, other;
static int flushes;

/* Takes the place of the system's function, for the library too. */
int fdatasync(int file) {
    flushes++;
    return (int)syscall(SYS_fdatasync, file);
}

static bool ended(uint32_t fault, uint32_t returned, int error, const char *text) {
    answer = db.answer;
    return returned == fault && db.answer.fault == fault && db.answer.system_error == (uint32_t)error &&
           !strcmp(rrdi_db_error(&db), text);
}

static bool is_not_open(struct rrdi_db *one, uint32_t returned) {
    return returned == RRDI_CANNOT_OPEN && one->answer.fault == RRDI_CANNOT_OPEN && one->answer.system_error == EBADF;
}

/* ---- a database */

static void test_open(void) {
    memset(&db, 0xa5, sizeof db);
    want(ended(RRDI_CANNOT_OPEN, rrdi_db_open(&db, PATH, NULL, 0), ENOENT,
               "cannot open: " PATH ": no such file or directory"),
         "no file and no definition");
    uint32_t returned = rrdi_db_open(&db, PATH, "--step 10 DS:g:GAUGE:100:U:U", 0);
    want(returned && held(PATH) == 0, "a definition without an archive");
    want(ended(RRDI_CANNOT_WRITE, rrdi_db_open(&db, "nowhere/file", DEFINITION, 0), ENOENT,
               "cannot write: nowhere/file: no such file or directory"),
         "a file in no folder");
    want(ended(RRDI_CANNOT_WRITE, rrdi_db_open(&db, "", DEFINITION, 0), ENOENT, "cannot write: no such file or directory"),
         "an empty path");
    want(ended(RRDI_CANNOT_WRITE, rrdi_db_open(&db, "nowhere/\x1b", DEFINITION, 0), ENOENT,
               "cannot write: no such file or directory"),
         "a path with a control character");
    want(ended(RRDI_CANNOT_WRITE, rrdi_db_open(&db, "\x1b/file", DEFINITION, 0), ENOENT, "cannot write: no such file or directory"),
         "a path that begins with a control character");
    memset(&db, 0xa5, sizeof db);
    want(ended(RRDI_OK, rrdi_db_open(&db, PATH, DEFINITION, RRDI_SYNCS), 0, "no fault") && held(PATH), "a file that is created");
}

static void test_updates(void) {
    struct rrdi_value values[] = {rrdi_double(0.5), rrdi_count(7)}, many[8];
    uint64_t times[] = {20, 30, 25, 40}, last = 7;
    size_t stored = 9;
    want(ended(RRDI_OK, rrdi_db_last(&db, &last), 0, "no fault") && last == 0, "the time of the start");
    want(ended(RRDI_OK, rrdi_db_update(&db, 10, values, 2), 0, "no fault") && db.answer.is_changed, "an update");
    want(ended(RRDI_OK, rrdi_db_last(&db, &last), 0, "no fault") && last == 10, "the time of a sample");
    want(ended(RRDI_REFUSED, rrdi_db_update(&db, 10, values, 2), 0,
               "not later than 10: 10 is not later than the last update, 10; the next sample may be at 11 or later"),
         "an update that comes too late");
    want(rrdi_db_update(&db, 20, values, 1) == RRDI_REFUSED, "an update with a value for one of two sources");
    want(rrdi_db_update(&db, 20, NULL, 0) == RRDI_REFUSED, "an update without values");
    for (size_t at = 0; at < 4; at++) {
        many[2 * at] = rrdi_double((double)at);
        many[2 * at + 1] = rrdi_count(7 + 10 * at);
    }
    want(ended(RRDI_OK, rrdi_db_update_many(&db, times, many, 0, 2, &stored), 0, "no fault") && stored == 0, "no sample");
    want(ended(RRDI_REFUSED, rrdi_db_update_many(&db, times, many, 4, 2, &stored), 0,
               "not later than 30: 25 is not later than the last update, 30; the next sample may be at 31 or later") &&
             stored == 2,
         "samples of which the third is refused");
    want(ended(RRDI_OK, rrdi_db_update_many(&db, times + 3, many + 6, 1, 2, &stored), 0, "no fault") && stored == 1,
         "one of many samples");
    memset(&answer, 0xa5, sizeof answer);
    rrdi_update_many(&db.file, times, many, 0, 2, &stored, output, sizeof output, &answer);
    want(!stored && gave(RRDI_OK, false, "") && explains(""), "no sample for an open file");
    stored = 9;
    rrdi_update_many(&db.file, times, many, 4, 2, &stored, output, sizeof output, &answer);
    want(!stored && answer.fault == RRDI_REFUSED && explains("20 is not later"), "samples for an open file that come too late");
}

/* A database begins with the present time, unless its definition says another one. */
static void test_start(void) {
    uint64_t last, begun = (uint64_t)time(NULL);
    want(!rrdi_db_open(&other, "now.rrdi", "DS:g:GAUGE:100:U:U RRA:LAST:0.5:1:4", 0) && !rrdi_db_last(&other, &last) &&
             last + 60 >= begun && last <= (uint64_t)time(NULL),
         "the time at which a database begins");
    rrdi_db_close(&other);
}

/* Only a database that was opened so flushes its creation and each of its changes. */
static void test_flushes(void) {
    struct rrdi_value values[] = {rrdi_double(1.5), rrdi_count(9)};
    const uint32_t options[] = {0, RRDI_SYNCS};
    const char *const paths[] = {"not-flushed.rrdi", "flushed.rrdi"};
    for (size_t at = 0; at < 2; at++) {
        int first = flushes;
        want(!rrdi_db_open(&other, paths[at], DEFINITION, options[at]) && (flushes > first) == (at == 1), "the flushes of a creation");
        for (uint64_t number = 1; number < 4; number++) {
            int before = flushes;
            want(!rrdi_db_update(&other, 100 * (at + 1) + number, values, 2) && (flushes > before) == (at == 1), "the flushes of an update");
        }
        rrdi_db_close(&other);
    }
}

/* The rows are those of the samples, and each sample is a change of its own. */
static void test_fetch(void) {
    struct rrdi_rows rows;
    struct rrdi_value values[8];
    memset(values, 0xa5, sizeof values);
    want(ended(RRDI_NO_ROOM, rrdi_db_fetch(&db, RRDI_LAST, 1, 10, 39, &rows, values, 5), 0, "too little room") &&
             rows.count == 3 && rows.sources == 2 && values[0].kind == 0xa5,
         "a fetch with room for five of six values");
    want(rrdi_db_fetch(&db, RRDI_LAST, 1, 10, 39, &rows, NULL, 8) == RRDI_NO_ROOM && rows.count == 3, "a fetch to nowhere");
    want(ended(RRDI_OK, rrdi_db_fetch(&db, RRDI_LAST, 1, 10, 39, &rows, values, 6), 0, "no fault") && rows.step == 10,
         "a fetch");
    for (uint64_t row = 0; row < rows.count; row++) {
        double found = rrdi_to_double(values[2 * row]);
        const double right[] = {0.0, 1.0, 3.0};
        want(row < 3 && found == right[row], "a value of a fetch");
    }
    want(rrdi_db_fetch(&db, 4, 1, 10, 39, &rows, values, 8) == RRDI_BAD_WORD && rows.count == 0, "a function that is none");
    for (int undone = 0; undone < 4; undone++) {
        rrdi_run_open(&db.file, WORDS("revert"), 0, output, sizeof output, &answer);
        want(gave(RRDI_OK, true, ""), "a sample is a change");
    }
    rrdi_run_open(&db.file, WORDS("revert"), 0, output, sizeof output, &answer);
    want(answer.fault == RRDI_REFUSED, "more changes than samples");
}

/* ---- structs that have no open file */

static void test_each_call(struct rrdi_db *one, const char *what) {
    struct rrdi_value values[2] = {{0, 0, 0, false}, {0, 0, 0, false}};
    struct rrdi_rows rows;
    uint64_t time = 50, last = 7;
    size_t stored = 7;
    want(is_not_open(one, rrdi_db_update(one, time, values, 2)), what);
    want(is_not_open(one, rrdi_db_update_many(one, &time, values, 1, 2, &stored)) && stored == 0, what);
    want(is_not_open(one, rrdi_db_fetch(one, RRDI_LAST, 1, 0, 39, &rows, values, 2)) && rows.count == 0, what);
    want(is_not_open(one, rrdi_db_last(one, &last)) && last == 0, what);
    want(strstr(rrdi_db_error(one), "cannot open") != NULL, what);
    rrdi_db_close(one);
    rrdi_db_close(one);
}

static void test_wrong_structs(void) {
    struct rrdi_value value = rrdi_whole(1);
    uint64_t time = 60, last;
    size_t stored = 7;
    memset(&other, 0, sizeof other);
    test_each_call(&other, "a struct of zeros");
    memset(&other, 0xa5, sizeof other);
    test_each_call(&other, "a struct of garbage");
    other = db;
    test_each_call(&other, "a copy of a struct");
    want(!rrdi_db_last(&db, &last), "the struct after its copy");
    want(rrdi_db_update(NULL, time, &value, 1) == RRDI_CANNOT_OPEN && *rrdi_db_error(NULL), "a null pointer");
    rrdi_db_close(NULL);
    want(ended(RRDI_BAD_WORD, rrdi_db_update(&db, time, NULL, 2), 0,
               "unreadable: the times or the values are a null pointer"),
         "values at a null pointer");
    want(rrdi_db_update_many(&db, NULL, &value, 1, 1, &stored) == RRDI_BAD_WORD && !stored, "times at a null pointer");
    want(rrdi_db_update_many(&db, &time, &value, 1, 1, NULL) == RRDI_REFUSED, "a number of stored samples that nobody wants");
    rrdi_db_close(&db);
    want(ended(RRDI_CANNOT_OPEN, rrdi_db_update(&db, time, &value, 1), EBADF, "cannot open: the database is closed"),
         "the text of a struct that was closed");
    test_each_call(&db, "a struct that was closed");
    want(rrdi_db_open(NULL, PATH, NULL, 0) == RRDI_CANNOT_OPEN, "an opening into a null pointer");
    want(ended(RRDI_USAGE, rrdi_db_open(&db, PATH, NULL, 4), 0, "usage: no such option"), "an option that is none");
    want(ended(RRDI_CANNOT_OPEN, rrdi_db_open(&db, NULL, NULL, 0), EINVAL, "cannot open: the path is a null pointer"),
         "an opening of a null pointer");
}

static void test_wrong_files(void) {
    memset(&opened, 0, sizeof opened);
    run_open(WORDS("last"));
    want(cannot_open(EBADF), "a file of zeros");
    rrdi_close(&opened);
    open_file(PATH);
    rrdi_close(&opened);
    rrdi_close(&opened);
    run_open(WORDS("last"));
    want(cannot_open(EBADF), "a file that was closed twice");
}

/* ---- a fork */

static void use_in_child(void) {
    struct rrdi_value values[2] = {rrdi_double(1.0), rrdi_count(1)};
    struct rrdi_rows rows;
    uint64_t last;
    want(rrdi_db_update(&db, 50, values, 2) == RRDI_CANNOT_OPEN && db.answer.system_error == ECHILD, "an update in a child");
    want(rrdi_db_last(&db, &last) == RRDI_CANNOT_OPEN && db.answer.system_error == ECHILD, "a query in a child");
    want(rrdi_db_fetch(&db, RRDI_LAST, 1, 0, 9, &rows, values, 2) == RRDI_CANNOT_OPEN && !rows.count, "a fetch in a child");
    want(strstr(rrdi_db_error(&db), "another process opened the file") != NULL, "the text in a child");
    rrdi_db_close(&db);
    run_file("second.rrdi", WORDS("update\00050:1:1"), 0);
    want(cannot_open(EAGAIN), "the parent's lock after a child has closed the file");
}

static void test_fork(void) {
    struct rrdi_value values[2] = {rrdi_double(1.0), rrdi_count(1)};
    uint64_t last;
    want(!rrdi_db_open(&db, "second.rrdi", DEFINITION, 0), "a database before a fork");
    in_child(use_in_child);
    want(!rrdi_db_last(&db, &last) && last == 0, "a database of the parent");
    want(!rrdi_db_update(&db, 50, values, 2), "an update in the parent");
    rrdi_db_close(&db);
    run_file("second.rrdi", WORDS("last"), 0);
    want(gave(RRDI_OK, false, "50\n"), "the file after a fork");
    run_file(PATH, WORDS("update\00050:1:1"), 0);
    want(gave(RRDI_OK, true, ""), "an update of the other file");
}

/* ---- files that are open, waits */

/* Nobody replaces a file that this process has open. */
static void test_create_over_open(void) {
    static uint8_t before[1 << 16], after[1 << 16];
    open_file(PATH);
    size_t size = bytes_of(PATH, before);
    run_file(PATH, WORDS(CREATE), 0);
    want(cannot_write(EAGAIN), "a create over an open file");
    rrdi_create_new(NAME(PATH), WORDS(CREATE), 0, 0, false, output, sizeof output, &answer);
    want(cannot_write(EEXIST), "a new file in place of an open one");
    want(bytes_of(PATH, after) == size && !memcmp(before, after, size), "an open file after a create");
    run_open(WORDS("update\00060:1:1"));
    want(gave(RRDI_OK, true, ""), "an update after a create");
    rrdi_close(&opened);
}

static double milliseconds(void) {
    struct timespec time;
    clock_gettime(CLOCK_MONOTONIC, &time);
    return (double)time.tv_sec * 1e3 + (double)time.tv_nsec / 1e6;
}

/* A call waits as long as it was asked to, by the clock, for a lock that another process holds. */
static void test_deadline(void) {
    int ends[2];
    char byte;
    if (pipe(ends))
        exit(3);
    fflush(stdout);
    pid_t child = fork();
    if (!child) {
        int file = open(PATH, O_RDWR);
        _exit(flock(file, LOCK_EX) || write(ends[1], "x", 1) != 1 || pause());
    }
    if (read(ends[0], &byte, 1) != 1)
        exit(3);
    double begun = milliseconds();
    run_file(PATH, WORDS("last"), WAIT);
    double taken = milliseconds() - begun;
    want(cannot_open(EAGAIN) && taken >= WAIT - TOLERANCE && taken <= WAIT + TOLERANCE, "the milliseconds of a wait");
    kill(child, SIGKILL);
    waitpid(child, NULL, 0);
}

int main(void) {
    test_open();
    test_updates();
    test_fetch();
    test_start();
    test_flushes();
    test_wrong_structs();
    test_wrong_files();
    test_fork();
    test_create_over_open();
    test_deadline();
    return end();
}
