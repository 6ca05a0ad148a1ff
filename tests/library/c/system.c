/* SPDX-License-Identifier: MIT OR Apache-2.0 */
/* Tests how the library asks the system: how files are opened, with which permissions and descriptors, what another
   program may do to a file while a call waits for its lock, pauses that signals interrupt, flushes, and pages of memory. The library's
   pauses and flushes go by this program, and take no time. Run the program in an empty folder; it prints each wrong
   result and the number of tests. */
#define _GNU_SOURCE
#include <errno.h>
#include <fcntl.h>
#include <sys/file.h>
#include <sys/resource.h>
#include <sys/syscall.h>
#include <sys/wait.h>
#include <time.h>
#include <unistd.h>

#include "checks.h"

#define PATH "net.rrdi"
#define LONG_WAIT 60000
#define NOBODY 65534
#define UPDATE "update\00030:3"

/* A reader, a change, and the change that takes it back. */
static const struct words calls[] = {{WORDS("last")}, {WORDS(UPDATE)}, {WORDS("revert")}};
static uint8_t old[1 << 16], new[1 << 16];
static size_t old_size, new_size;

/* What another program does during the first pause; the nanoseconds of all pauses; and whether a signal ends every
   second one in its middle. */
static void (*during)(void);
static uint64_t slept;
static bool has_signals, is_second;

int nanosleep(const struct timespec *length, struct timespec *left) {
    uint64_t asked = length->tv_sec * 1000000000ull + length->tv_nsec, half = asked / 2;
    void (*act)(void) = during;
    during = NULL;
    if (act)
        act();
    is_second = !is_second;
    if (!has_signals || is_second) {
        slept += asked;
        return 0;
    }
    slept += half;
    left->tv_sec = (asked - half) / 1000000000;
    left->tv_nsec = (asked - half) % 1000000000;
    errno = EINTR;
    return -1;
}

/* The clock goes on by the pauses alone. */
int clock_gettime(clockid_t clock, struct timespec *time) {
    time->tv_sec = slept / 1000000000;
    time->tv_nsec = slept % 1000000000;
    return clock == CLOCK_MONOTONIC ? 0 : -1;
}

/* A lock for which a call would wait without an end fails. */
static int endless;

int flock(int file, int how) {
    if (how & LOCK_NB || how == LOCK_UN)
        return syscall(SYS_flock, file, how);
    endless++;
    errno = EDEADLK;
    return -1;
}

/* What another program does after the library has looked at a path, and before it opens the file. */
static void (*before_opening)(void);

int statx(int file, const char *path, int flags, unsigned mask, struct statx *found) {
    int got = syscall(SYS_statx, file, path, flags, mask, found);
    void (*act)(void) = before_opening;
    before_opening = NULL;
    if (act)
        act();
    return got;
}

/* The number of flushes, and the error of each. */
static int flushes, flush_error;

int fdatasync(int file) {
    flushes++;
    if (!flush_error)
        return syscall(SYS_fdatasync, file);
    errno = flush_error;
    return -1;
}

/* Makes a database with one update, and keeps the bytes of it, and of a longer one with a second update. */
static void make(void) {
    unlink(PATH);
    run_file(PATH, WORDS(CREATE), 0);
    run_file(PATH, WORDS("update\00010:1"), 0);
    old_size = bytes_of(PATH, old);
    run_file(PATH, WORDS("update\00020:2"), 0);
    new_size = bytes_of(PATH, new);
    put(PATH, old, old_size);
    want(old_size == 309 && new_size == 394, "the files of the tests");
}

/* ---- what another program does while a call waits */

static int holder;

static void hold(void) {
    holder = open(PATH, O_RDWR | O_CLOEXEC);
    if (holder < 0 || flock(holder, LOCK_EX | LOCK_NB))
        exit(3);
}

static void let_go(void) {
    close(holder);
}

static void lengthen(void) {
    if (pwrite(holder, new, new_size, 0) != (ssize_t)new_size)
        exit(3);
    let_go();
}

static void replace(void) {
    put("next", new, new_size);
    if (rename("next", PATH))
        exit(3);
    let_go();
}

static void take_away(void) {
    if (rename(PATH, "away"))
        exit(3);
    let_go();
}

static void wait_while(void (*act)(void), const uint8_t *words, size_t words_length) {
    put(PATH, old, old_size);
    hold();
    during = act;
    run_file(PATH, words, words_length, LONG_WAIT);
    want(!during, "a call that waits");
}

/* A call that has waited works on the file that has the name then, with the bytes that the file has then. */
static void test_changed(void (*act)(void), const char *what) {
    wait_while(act, WORDS("last"));
    want(gave(RRDI_OK, false, "20\n"), what);
    wait_while(act, WORDS(UPDATE));
    want(gave(RRDI_OK, true, ""), what);
    run_file(PATH, WORDS("last"), 0);
    want(gave(RRDI_OK, false, "30\n"), what);
    run_file(PATH, WORDS("revert"), 0);
    want(gave(RRDI_OK, true, "") && has_bytes(PATH, new, new_size), what);
    put(PATH, old, old_size);
    hold();
    during = act;
    rrdi_open(NAME(PATH), LONG_WAIT, false, &opened, output, sizeof output, &answer);
    want(gave(RRDI_OK, false, ""), what);
    run_open(WORDS("last"));
    want(gave(RRDI_OK, false, "20\n"), what);
    rrdi_close(&opened);
}

/* A file that is taken away stays as it is, and a create makes another one. */
static void test_taken_away(void) {
    for (size_t at = 0; at < sizeof calls / sizeof *calls; at++) {
        wait_while(take_away, calls[at].bytes, calls[at].length);
        want(cannot_open(ENOENT) && access(PATH, F_OK), "a file that is taken away");
        want(has_bytes("away", old, old_size), "the file that was taken away");
    }
    wait_while(take_away, WORDS(CREATE));
    want(gave(RRDI_OK, true, "") && held(PATH) == 224 && has_bytes("away", old, old_size),
         "a create whose file is taken away");
    unlink("away");
}

static void remove_file(void) {
    if (unlink(PATH))
        exit(3);
}

/* A file that is removed before it is opened is not made again, except by a create. */
static void test_removed(void) {
    for (size_t at = 0; at < sizeof calls / sizeof *calls; at++) {
        put(PATH, old, old_size);
        before_opening = remove_file;
        run_file(PATH, calls[at].bytes, calls[at].length, 0);
        want(cannot_open(ENOENT) && access(PATH, F_OK), "a file that is removed before it is opened");
    }
}

static void test_waits(void) {
    test_changed(lengthen, "a file that is lengthened during a wait");
    test_changed(replace, "a file that is replaced during a wait");
    test_taken_away();
    test_removed();
    want(endless == 0, "a lock for which a call would wait without an end");
}

/* ---- pauses */

/* A pause that a signal ends goes on afterwards. */
static void test_signals(void) {
    const uint64_t waits[] = {1, 50, 300, 2500};
    put(PATH, old, old_size);
    hold();
    has_signals = true;
    for (size_t at = 0; at < sizeof waits / sizeof *waits; at++) {
        slept = 0;
        is_second = true;
        run_file(PATH, WORDS("last"), waits[at]);
        want(cannot_open(EAGAIN) && slept == waits[at] * 1000000, "pauses that signals interrupt");
    }
    has_signals = false;
    let_go();
}

/* ---- opening */

static bool are_closed_by_exec;
static int descriptors;

/* Counts the descriptors of the file, besides the holder's; no other program inherits one, and none is a standard
   stream. */
static void look(void) {
    char to[4096], own[4096];
    ssize_t size = 0;
    are_closed_by_exec = true;
    descriptors = 0;
    if (!realpath(PATH, own))
        exit(3);
    for (int file = 0; file < 64; file++) {
        char name[32];
        snprintf(name, sizeof name, "/proc/self/fd/%d", file);
        if (file == holder || (size = readlink(name, to, sizeof to - 1)) < 0)
            continue;
        to[size] = 0;
        if (!strcmp(to, own)) {
            descriptors++;
            are_closed_by_exec &= file > 2 && fcntl(file, F_GETFD) & FD_CLOEXEC;
        }
    }
}

static void look_and_let_go(void) {
    look();
    let_go();
}

static void test_descriptors(void) {
    for (int is_closed = 0; is_closed < 2; is_closed++) {
        int kept = fcntl(0, F_DUPFD_CLOEXEC, 100);
        if (is_closed)
            close(0);
        wait_while(look_and_let_go, WORDS("last"));
        want(gave(RRDI_OK, false, "10\n") && descriptors == 1 && are_closed_by_exec, "the descriptor of a call");
        wait_while(look_and_let_go, WORDS(UPDATE));
        want(gave(RRDI_OK, true, "") && descriptors == 1 && are_closed_by_exec, "the descriptor of a change");
        open_file(PATH);
        holder = -1;
        look();
        want(gave(RRDI_OK, false, "") && descriptors == 1 && are_closed_by_exec, "the descriptor of an open file");
        rrdi_close(&opened);
        look();
        want(descriptors == 0, "the descriptor of a file that was closed");
        if (kept >= 0) {
            dup2(kept, 0);
            close(kept);
        }
    }
}

/* Only a create makes a file. */
static void test_no_file(void) {
    static const struct words calls[] = {
        {WORDS("last")},
        {WORDS("info")},
        {WORDS(UPDATE)},
        {WORDS("revert")},
        {WORDS("tune\0-i\0g:1")},
        {WORDS("resize\0000\0GROW\0001")},
    };
    uint64_t refused[1];
    for (size_t at = 0; at < sizeof calls / sizeof *calls; at++) {
        run_file("none", calls[at].bytes, calls[at].length, 0);
        want(cannot_open(ENOENT) && access("none", F_OK), "a command on no file");
    }
    open_file("none");
    want(cannot_open(ENOENT) && access("none", F_OK), "no file is opened");
    rrdi_batch_file(NAME("none"), WORDS("last\n"), 0, 0, false, output, sizeof output, refused, 1, &answer);
    want(gave(RRDI_OK, false, "ERROR: no database\n") && access("none", F_OK), "a batch that makes no file");
}

/* A new file has the permissions that the umask leaves; a file that is replaced keeps its own, and its inode. */
static void test_permissions(void) {
    const mode_t masks[] = {0, 022, 027, 077};
    struct stat before, after;
    mode_t mask = umask(0);
    for (size_t at = 0; at < sizeof masks / sizeof *masks; at++) {
        umask(masks[at]);
        run_file("made", WORDS(CREATE), 0);
        bool is_made = gave(RRDI_OK, true, "") && !stat("made", &after);
        want(is_made && (after.st_mode & 07777) == (0666 & ~masks[at]), "a new file's permissions");
        unlink("made");
    }
    umask(mask);
    put("made", old, old_size);
    want(!chmod("made", 0604) && !stat("made", &before), "a file with permissions of its own");
    run_file("made", WORDS(CREATE), 0);
    want(gave(RRDI_OK, true, "") && !stat("made", &after), "a create over a file with permissions of its own");
    want(after.st_mode == before.st_mode && after.st_ino == before.st_ino, "a file that is replaced is the same one");
    unlink("made");
}

/* Runs as a user without permissions, as far as this process may. */
static void as_nobody(bool is_nobody) {
    if (getuid() == 0 && seteuid(is_nobody ? NOBODY : 0))
        exit(3);
}

static void test_denied(void) {
    uint64_t refused[1];
    put(PATH, old, old_size);
    if (chmod(".", 0755) || chmod(PATH, 0444) || mkdir("closed", 0700))
        exit(3);
    put("closed/file", old, old_size);
    if (chmod("closed", 0))
        exit(3);
    as_nobody(true);
    run_file(PATH, WORDS("last"), 0);
    want(gave(RRDI_OK, false, "10\n"), "last of a file that may only be read");
    run_file(PATH, WORDS(UPDATE), 0);
    want(answer.fault != RRDI_OK && answer.system_error == EACCES, "an update of a file that may only be read");
    run_file("closed/file", WORDS("last"), 0);
    want(cannot_open(EACCES), "last in a folder that is closed");
    run_file("closed/file", WORDS(CREATE), 0);
    want(cannot_write(EACCES), "create in a folder that is closed");
    rrdi_batch_file(NAME("closed/file"), WORDS("last\n"), 0, 0, false, output, sizeof output, refused, 1, &answer);
    want(cannot_open(EACCES), "a batch in a folder that is closed");
    as_nobody(false);
    if (chmod("closed", 0700) || chmod(PATH, 0644))
        exit(3);
    want(has_bytes(PATH, old, old_size) && has_bytes("closed/file", old, old_size), "files that may not be written");
}

/* A link leads to its file, and stays. */
static void test_links(void) {
    struct stat found;
    put(PATH, old, old_size);
    want(!symlink(PATH, "link"), "a link");
    run_file("link", WORDS("last"), 0);
    want(gave(RRDI_OK, false, "10\n"), "last by a link");
    run_file("link", WORDS("update\00020:2"), 0);
    want(gave(RRDI_OK, true, "") && has_bytes(PATH, new, new_size), "an update by a link");
    run_file("link", WORDS(CREATE), 0);
    want(gave(RRDI_OK, true, "") && held(PATH) == 224, "a create by a link");
    want(!lstat("link", &found) && S_ISLNK(found.st_mode), "the link stays");
}

/* ---- flushes */

static void flush_by(const uint8_t *words, size_t words_length, bool syncs) {
    put(PATH, old, old_size);
    flushes = 0;
    rrdi_run_file(NAME(PATH), words, words_length, 0, 0, syncs, output, sizeof output, &answer);
}

static void test_flushes(void) {
    flush_by(WORDS(UPDATE), false);
    want(gave(RRDI_OK, true, "") && flushes == 0, "a change without flushes");
    flush_by(WORDS(UPDATE), true);
    want(gave(RRDI_OK, true, "") && flushes > 0, "a change with flushes");
    flush_by(WORDS("last"), true);
    want(gave(RRDI_OK, false, "10\n") && flushes == 0, "a command that only reads has nothing to flush");
    flush_error = EIO;
    flush_by(WORDS(UPDATE), true);
    want(cannot_write(EIO), "a flush that fails");
    flush_error = 0;
}

/* ---- memory */

/* The pages that the system has given to the process, again and again. */
static long pages(void) {
    struct rusage found;
    return getrusage(RUSAGE_SELF, &found) ? -1 : found.ru_minflt;
}

/* Updates a file of 64 KB a hundred times. */
static void update_often(long from) {
    char line[40];
    for (long time = from; time < from + 100; time++) {
        size_t length = (size_t)sprintf(line, "update%c%ld:3", 0, time);
        run_file(PATH, (const uint8_t *)line, length, 0);
    }
}

static void test_pages(void) {
    unlink(PATH);
    run_file(PATH, WORDS("create\0--step\00010\0--start\0000\0DS:g:GAUGE:100:U:U\0RRA:LAST:0.5:1:4000"), 0);
    want(gave(RRDI_OK, true, "") && held(PATH) > 60000, "a file of 64 KB");
    update_often(1);
    long before = pages();
    update_often(101);
    want(gave(RRDI_OK, true, "") && pages() - before < 200, "calls keep the pages of their memory");
}

static void batch_often(long from) {
    char line[40];
    for (long time = from; time < from + 100; time++) {
        size_t length = (size_t)sprintf(line, "update %ld:3\n", time);
        rrdi_batch_file(NAME(PATH), (const uint8_t *)line, length, 0, 0, false, output, sizeof output, NULL, 0, &answer);
    }
}

/* A process that runs nothing but batches keeps them too. */
static void test_pages_of_batches(void) {
    int status = -1;
    pid_t child = fork();
    if (!child) {
        const char *create = "create --step 10 --start 0 DS:g:GAUGE:100:U:U RRA:LAST:0.5:1:4000\n";
        rrdi_batch_file(NAME(PATH), (const uint8_t *)create, strlen(create), 0, 0, false, output, sizeof output, NULL, 0, &answer);
        batch_often(1);
        long before = pages();
        batch_often(101);
        bool is_right = gave(RRDI_OK, true, "") && held(PATH) > 60000 && pages() - before < 200;
        unlink(PATH);
        _exit(is_right ? 0 : 1);
    }
    want(child > 0 && waitpid(child, &status, 0) == child && !status, "batches keep the pages of their memory");
}

/* ---- all */

/* The number of descriptors of the process. */
static int open_files(void) {
    int found = 0;
    for (int file = 0; file < 64; file++)
        found += fcntl(file, F_GETFD) >= 0;
    return found;
}

int main(void) {
    int before = open_files();
    test_pages_of_batches();
    make();
    test_waits();
    test_signals();
    test_descriptors();
    test_no_file();
    test_permissions();
    test_links();
    test_flushes();
    test_denied();
    test_pages();
    want(open_files() == before, "the descriptors that are open at the end");
    return end();
}
