/* SPDX-License-Identifier: MIT OR Apache-2.0 */
/* Tests the functions of rrdi.h: results without a fault, the number of each fault, buffers that are too small, the
   numbers of refused lines, closed streams, pipes, limits, calls that fail, files that stay open, a lock that another
   process holds, threads. The library's pauses and its reads of files go by this program. Run the program in an empty
   folder; it prints each wrong result and the number of tests. */
#define _GNU_SOURCE
#include <errno.h>
#include <fcntl.h>
#include <pthread.h>
#include <sys/file.h>
#include <sys/syscall.h>
#include <sys/wait.h>
#include <time.h>
#include <unistd.h>

#include "checks.h"

#define CREATE_LINE "create --step 10 --start 0 DS:g:GAUGE:100:U:U RRA:LAST:0.5:1:4\n"
#define PATH "net.rrdi"
#define THREADS 4
#define UPDATES 50
/* A call that waits for a pipe without an end is ended after this time. */
#define MOST_SECONDS 60
/* The most milliseconds for which a call waits, and the longest pause. */
#define MOST_WAIT 3600000
#define LONGEST_PAUSE 5

static uint8_t file[1 << 16], new_file[1 << 16];
static size_t length;
static bool has_file;

/* The pauses of calls that wait for a lock: how many there were, their milliseconds, and the longest and the first one.
   They take no time if `has_no_pauses`; but on a busy machine each is so many times as long, and each try for a lock takes so many
   milliseconds. */
static volatile uint64_t pauses, paused, longest, first, tried, times = 1, try_length;
static bool has_no_pauses;

int nanosleep(const struct timespec *time, struct timespec *left) {
    uint64_t milliseconds = time->tv_sec * 1000 + time->tv_nsec / 1000000;
    first = pauses ? first : milliseconds;
    longest = milliseconds > longest ? milliseconds : longest;
    paused += milliseconds;
    pauses++;
    return has_no_pauses ? 0 : syscall(SYS_nanosleep, time, left);
}

/* The clock goes on by the pauses alone if they take no time. */
int clock_gettime(clockid_t clock, struct timespec *time) {
    if (!has_no_pauses)
        return syscall(SYS_clock_gettime, clock, time);
    uint64_t now = paused * times + tried;
    time->tv_sec = now / 1000;
    time->tv_nsec = now % 1000 * 1000000;
    return 0;
}

int flock(int locked, int how) {
    tried += try_length;
    return syscall(SYS_flock, locked, how);
}

/* The error of one read of a file, 0 if all work; and how many work before, each of which moves at most a page. */
static int read_error, works_left;

static bool has_failed(size_t *size) {
    if (read_error && *size > 4096)
        *size = 4096;
    if (!read_error || works_left-- > 0)
        return false;
    errno = read_error;
    read_error = 0;
    return true;
}

ssize_t read(int from, void *bytes, size_t size) {
    return has_failed(&size) ? -1 : syscall(SYS_read, from, bytes, size);
}

ssize_t pread64(int from, void *bytes, size_t size, off_t at) {
    return has_failed(&size) ? -1 : syscall(SYS_pread64, from, bytes, size, at);
}

ssize_t pread(int from, void *bytes, size_t size, off_t at) {
    return pread64(from, bytes, size, at);
}

/* The error of one last write, which takes the mark off a file; 0 if it works. */
static int last_error;

ssize_t pwrite64(int to, const void *bytes, size_t size, off_t at) {
    if (!last_error || at || size != 4 || memcmp(bytes, "RRDI", 4))
        return syscall(SYS_pwrite64, to, bytes, size, at);
    errno = last_error;
    last_error = 0;
    return -1;
}

ssize_t pwrite(int to, const void *bytes, size_t size, off_t at) {
    return pwrite64(to, bytes, size, at);
}

/* ---- commands, in each way */

/* A command, its fault, its output, and the length of the file after it. A command without output changes the file. */
static const struct step {
    struct words words;
    uint32_t fault;
    const char *text;
    size_t length;
} steps[] = {
    {{WORDS("last")}, RRDI_CANNOT_OPEN, "cannot open", 0},
    {{WORDS(CREATE)}, RRDI_OK, "", 224},
    {{WORDS("update\00010:1")}, RRDI_OK, "", 309},
    {{WORDS("last")}, RRDI_OK, "10\n", 309},
    {{WORDS("fetch\0LAST\0-s\0000\0-e\00019")}, RRDI_OK, "time: g\n10: 1.000000\n20: nan\n", 309},
    {{WORDS("update\00010:1")}, RRDI_REFUSED, "not later than 10", 309},
    {{WORDS("update\0005:1")}, RRDI_REFUSED, "not later than 10", 309},
    {{WORDS("update")}, RRDI_REFUSED, "no sample", 309},
    {{WORDS("update\00010")}, RRDI_BAD_WORD, "unreadable sample 1", 309},
    {{WORDS("nothing")}, RRDI_USAGE, "usage", 309},
    {{WORDS("last\0more")}, RRDI_USAGE, "usage", 309},
    {{WORDS("last\0")}, RRDI_USAGE, "usage", 309},
    {{WORDS("last\0\xff")}, RRDI_USAGE, "usage", 309},
    {{WORDS("revert")}, RRDI_OK, "", 224},
};

/* Runs the commands from one on by a function that returns the length of the file after a command, whose output has so
   much room. */
static void test_steps(size_t first, size_t (*run)(const uint8_t *words, size_t words_length, size_t room)) {
    for (const struct step *step = steps + first; step < steps + sizeof steps / sizeof *steps; step++) {
        size_t size = strlen(step->text), left = run(step->words.bytes, step->words.length, sizeof output);
        want(gave(step->fault, !step->fault && !size, step->text) && left == step->length,
             (const char *)step->words.bytes);
        want(step->fault == RRDI_CANNOT_OPEN || !answer.system_error, "the error of a call that worked");
        if (step->fault || !size)
            continue;
        memset(output, 7, 3);
        run(step->words.bytes, step->words.length, 2);
        want(lacks_room(RRDI_NO_ROOM, size) && output[0] == 7 && output[2] == 7, "an output with room for two bytes");
    }
}

static size_t run_in_memory(const uint8_t *words, size_t words_length, size_t room) {
    rrdi_run(has_file, file, length, words, words_length, 0, new_file, sizeof new_file, output, room, &answer);
    if (answer.is_changed) {
        memcpy(file, new_file, answer.file_length);
        length = answer.file_length;
        has_file = true;
    }
    return length;
}

static void run_in_room(size_t room) {
    rrdi_run(false, file, 0, WORDS(CREATE), 0, new_file, room, output, sizeof output, &answer);
}

static void test_run(void) {
    run_in_room(100);
    want(answer.fault == RRDI_NO_ROOM && !answer.is_changed && answer.file_length == 224,
         "create with room for 100 bytes");
    run_in_room(224);
    want(gave(RRDI_OK, true, "") && answer.file_length == 224 && !memcmp(new_file, "RRDI", 4), "create");
    test_steps(0, run_in_memory);
}

static void test_bytes(uint8_t *bytes, size_t size, uint32_t fault, uint64_t at, const char *text) {
    rrdi_run(true, bytes, size, WORDS("last"), 0, new_file, sizeof new_file, output, sizeof output, &answer);
    want(gave(fault, false, text) && answer.at == at, text);
    rrdi_batch(true, bytes, size, WORDS("last\n"), 0, new_file, sizeof new_file, output, sizeof output,
               (uint64_t *)new_file, 0, &answer);
    want(gave(fault, false, text) && answer.at == at, text);
}

static void test_bad_files(void) {
    uint8_t bad[225];
    test_bytes(file, 0, RRDI_TRUNCATED, 0, "file: truncated at 0");
    test_bytes(file, 100, RRDI_TRUNCATED, 100, "file: truncated at 100");
    memcpy(bad, file, 224);
    bad[224] = 0;
    test_bytes(bad, 225, RRDI_TRAILING, 224, "file: trailing at 224");
    bad[9] = 0;
    test_bytes(bad, 224, RRDI_BAD_BLOCK, 6, "file: bad block at 6");
    bad[9] = file[9];
    bad[29] = 1;
    bad[224] = 4;
    test_bytes(bad, 225, RRDI_BAD_ENTRY, 1, "file: bad entry 1");
    bad[5] = 9;
    test_bytes(bad, 224, RRDI_OTHER_VERSION, 0, "file: version");
    bad[0] = 'X';
    test_bytes(bad, 224, RRDI_NOT_OURS, 0, "file: not ours");
}

static void test_batch(void) {
    uint64_t refused[3] = {7, 7, 7};
    rrdi_batch(false, file, 0, WORDS("last\n" CREATE_LINE "nothing\n\nupdate 10:1\nupdate 5:1\nlast"), 0, new_file,
               sizeof new_file, output, sizeof output, refused, 2, &answer);
    want(gave(RRDI_OK, true, "ERROR: no database\nERROR: usage\nERROR: not later than 10\n10\n"), "a batch");
    want(answer.file_length == 309 && answer.refused == 3, "what a batch made");
    want(refused[0] == 1 && refused[1] == 3 && refused[2] == 7, "the numbers that there is room for");
    rrdi_batch(false, file, 0, WORDS("last\n"), 0, new_file, sizeof new_file, output, sizeof output, refused, 3,
               &answer);
    want(gave(RRDI_OK, false, "ERROR: no database\n") && answer.refused == 1 && refused[0] == 1 && refused[1] == 3,
         "a batch that makes nothing");
    rrdi_batch(false, file, 0, WORDS(CREATE_LINE), 0, new_file, 223, output, sizeof output, refused, 3, &answer);
    want(answer.fault == RRDI_NO_ROOM && !answer.is_changed && answer.file_length == 224,
         "a batch with too little room");
    rrdi_batch(true, file, length, WORDS("last\nlast\n"), 0, new_file, sizeof new_file, output, 3, refused, 3, &answer);
    want(lacks_room(RRDI_NO_ROOM, 4) && answer.file_length == length, "a batch whose output has no room");
    rrdi_batch(true, file, length, WORDS("last\nlast\n"), 0, new_file, 1, output, 3, refused, 3, &answer);
    want(lacks_room(RRDI_NO_ROOM, 4) && answer.file_length == length, "a batch without room for output and file");
    rrdi_batch(true, file, length, WORDS(""), 0, new_file, sizeof new_file, output, 0, refused, 0, &answer);
    want(gave(RRDI_OK, true, "") && answer.file_length == length && !memcmp(file, new_file, length),
         "a batch without a line");
}

/* ---- on files */

static void batch_file(const uint8_t *lines, size_t lines_length, size_t room, uint64_t *refused, size_t refused_room) {
    rrdi_batch_file(NAME(PATH), lines, lines_length, 0, 0, true, output, room, refused, refused_room, &answer);
}

static size_t run_at_path(const uint8_t *words, size_t words_length, size_t room) {
    rrdi_run_file(NAME(PATH), words, words_length, 0, 0, false, output, room, &answer);
    return held(PATH);
}

static void test_run_file(void) {
    run_file(PATH, WORDS("last"), 0);
    want(cannot_open(ENOENT), "last of no file");
    test_steps(0, run_at_path);
    run_file("\xff", WORDS("last"), 0);
    want(gave(RRDI_CANNOT_OPEN, false, "cannot open"), "a path that is no text");
    run_file("nowhere/file", WORDS(CREATE), 0);
    want(cannot_write(ENOENT), "create in no folder");
    run_file(".", WORDS(CREATE), 0);
    want(cannot_write(EISDIR), "create of a folder");
    run_file(".", WORDS("last"), 0);
    want(cannot_open(EISDIR), "last of a folder");
    run_file("/dev/full", WORDS(CREATE), 0);
    want(gave(RRDI_CANNOT_WRITE, false, "cannot write"), "create of a device");
    put("bad", "RRDI", 4);
    run_file("bad", WORDS("last"), 0);
    want(gave(RRDI_TRUNCATED, false, "file: truncated at 4") && answer.at == 4, "a file that is too short");
}

static void test_batch_file(void) {
    uint64_t refused[2] = {0, 0};
    batch_file(WORDS("update 10:1\nupdate 5:1\nlast\n"), 20, refused, 2);
    want(lacks_room(RRDI_NO_ROOM, 28) && held(PATH) == 224,
         "a batch on a file without room for its output");
    batch_file(WORDS("update 10:1\nupdate 5:1\nlast\n"), answer.output_needed, refused, 1);
    want(gave(RRDI_OK, true, "ERROR: not later than 10\n10\n") && held(PATH) == 309, "a batch on a file");
    want(answer.refused == 1 && refused[0] == 2 && refused[1] == 0, "the number of the refused line");
    rrdi_batch_file(NAME("bad"), WORDS("last\n"), 0, 0, false, output, sizeof output, refused, 2, &answer);
    want(gave(RRDI_TRUNCATED, false, "file: truncated at 4") && answer.at == 4 && !answer.refused,
         "a batch on a bad file");
    rrdi_batch_file(NAME("nowhere/file"), WORDS(CREATE_LINE "last\n"), 0, 0, false, output, sizeof output, refused, 2,
                    &answer);
    want(cannot_open(ENOENT), "a batch in no folder");
    want(!symlink("nowhere/file", "leads-nowhere"), "a link");
    rrdi_batch_file(NAME("leads-nowhere"), WORDS(CREATE_LINE "last\n"), 0, 0, false, output, sizeof output, refused, 2,
                    &answer);
    want(gave(RRDI_CANNOT_WRITE, false, "0\n") && answer.system_error == ENOENT, "a batch that cannot be written");
    rrdi_batch_file(NAME("another"), WORDS("last\n"), 0, 0, false, output, 18, refused, 2, &answer);
    want(lacks_room(RRDI_NO_ROOM, 19) && access("another", F_OK), "a batch that makes no file, without room");
    rrdi_batch_file(NAME("another"), WORDS("last\n"), 0, 0, false, output, sizeof output, refused, 2, &answer);
    want(gave(RRDI_OK, false, "ERROR: no database\n") && access("another", F_OK), "a batch that makes no file");
    rrdi_batch_file(NAME("\xff"), WORDS("last\n"), 0, 0, false, output, sizeof output, refused, 2, &answer);
    want(gave(RRDI_CANNOT_OPEN, false, "cannot open"), "a batch at a path that is no text");
}

/* ---- descriptors, limits, and files that are no regular files */

#define OLD_LINE "create --step 10 --start 0 DS:g:GAUGE:100:U:U RRA:LAST:0.5:1:4\nupdate 10:1\n"

/* Runs a call while the standard streams of a set are closed. Returns whether they are closed afterwards. */
static bool without_streams(unsigned closed, void (*call)(void)) {
    int kept[3];
    bool are_closed = true;
    fflush(stdout);
    for (int stream = 0; stream < 3; stream++)
        kept[stream] = fcntl(stream, F_DUPFD_CLOEXEC, 10);
    for (int stream = 0; stream < 3; stream++)
        if (closed >> stream & 1)
            close(stream);
    call();
    for (int stream = 0; stream < 3; stream++) {
        are_closed &= !(closed >> stream & 1) || fcntl(stream, F_GETFD) < 0;
        dup2(kept[stream], stream);
        close(kept[stream]);
    }
    return are_closed;
}

static void refused_update(void) {
    run_file("closed", WORDS("update\0005:1"), 0);
}

static void update(void) {
    run_file("closed", WORDS("update\00020:2"), 0);
}

static void last(void) {
    run_file("closed", WORDS("last"), 0);
}

static void fetch(void) {
    run_file("closed", WORDS("fetch\0LAST\0-s\0000\0-e\00019"), 0);
}

static void batch(void) {
    uint64_t refused[2];
    rrdi_batch_file(NAME("closed"), WORDS("last\nupdate 20:2\nupdate 5:1\n"), 0, 0, true, output, sizeof output,
                    refused, 2, &answer);
}

/* Checks that a call leaves the right bytes in its file, and no descriptor open, whatever streams are closed. */
static void test_streams(void) {
    static uint8_t old[1 << 16], new[1 << 16];
    uint64_t refused[2];
    rrdi_batch_file(NAME("closed"), WORDS(OLD_LINE), 0, 0, false, output, sizeof output, refused, 2, &answer);
    size_t old_size = bytes_of("closed", old);
    update();
    size_t new_size = bytes_of("closed", new);
    want(old_size == 309 && new_size == 394, "the files for calls without streams");
    for (unsigned closed = 0; closed < 8; closed++) {
        struct {
            void (*call)(void);
            uint32_t fault;
            const char *text;
            const uint8_t *bytes;
            size_t size;
        } calls[] = {{refused_update, RRDI_REFUSED, "not later than 10", old, old_size},
                     {last, RRDI_OK, "10\n", old, old_size},
                     {fetch, RRDI_OK, "time: g\n10: 1.000000\n20: nan\n", old, old_size},
                     {update, RRDI_OK, "", new, new_size},
                     {batch, RRDI_OK, "10\nERROR: not later than 20\n", new, new_size}};
        for (size_t at = 0; at < sizeof calls / sizeof *calls; at++) {
            put("closed", old, old_size);
            bool are_closed = without_streams(closed, calls[at].call);
            bool is_changed = calls[at].fault == RRDI_OK && calls[at].bytes == new;
            want(are_closed && gave(calls[at].fault, is_changed, calls[at].text),
                 "a call without some of the standard streams");
            want(has_bytes("closed", calls[at].bytes, calls[at].size),
                 "the file after a call without some of the standard streams");
        }
    }
}

static bool were_closed;

static void *update_later(void *of) {
    (void)of;
    run_file("closed", WORDS("update\00020:2"), 60000);
    return NULL;
}

/* Runs a call that waits for a lock, while another thread writes to each of the streams that are closed. */
static void write_to_streams(void) {
    int other = open("closed", O_RDWR), kept = fcntl(other, F_DUPFD_CLOEXEC, 10);
    pthread_t thread;
    pauses = 0;
    close(other);
    if (kept < 0 || flock(kept, LOCK_EX) || pthread_create(&thread, NULL, update_later, NULL))
        exit(3);
    while (!pauses)
        usleep(1000);
    were_closed = true;
    for (int stream = 0; stream < 3; stream++)
        were_closed &= write(stream, "text", 4) < 0;
    close(kept);
    pthread_join(thread, NULL);
}

/* Checks that the file of a call that waits is no standard stream, so that no text of another thread gets into the
   file. */
static void test_written_streams(void) {
    static uint8_t old[1 << 16], new[1 << 16];
    put("closed", old, 0);
    run_file("closed", WORDS(CREATE), 0);
    size_t old_size = bytes_of("closed", old);
    update();
    size_t new_size = bytes_of("closed", new);
    put("closed", old, old_size);
    want(without_streams(7, write_to_streams) && were_closed, "a file that is a standard stream");
    want(gave(RRDI_OK, true, "") && has_bytes("closed", new, new_size),
         "a file while another thread writes to closed streams");
}

/* A call on a pipe with a name or on a device ends at once, whatever time it may wait. */
static void test_pipes(void) {
    want(!mkfifo("fifo", 0600), "a pipe with a name");
    pauses = 0;
    const char *names[] = {"fifo", "/dev/null", "/dev/zero"};
    for (size_t at = 0; at < 3; at++) {
        run_file(names[at], WORDS("last"), 60000);
        want(gave(RRDI_CANNOT_OPEN, false, "cannot open") && answer.system_error, "last of a pipe or a device");
        run_file(names[at], WORDS("update\00010:1"), 60000);
        want(gave(RRDI_CANNOT_OPEN, false, "cannot open") && answer.system_error, "an update of a pipe or a device");
        run_file(names[at], WORDS(CREATE), 60000);
        want(gave(RRDI_CANNOT_WRITE, false, "cannot write") && answer.system_error, "a create of a pipe or a device");
    }
    want(!pauses, "calls on a pipe and on devices wait");
}

static void update_limited(void) {
    run_file("limited", WORDS("update\00010:1"), 0);
}

/* Checks the error of the system under a limit on the size of files. */
static void test_limits(void) {
    static uint8_t old[1 << 16];
    run_file("limited", WORDS(CREATE), 0);
    size_t size = bytes_of("limited", old);
    with_limit(size, update_limited);
    want(gave(RRDI_CANNOT_WRITE, false, "cannot write") && answer.system_error,
         "an update under a limit on the size of files");
    want(has_bytes("limited", old, size), "the file after an update under a limit");
}

/* ---- a file that stays open */

/* A struct of zeros has no open file, and one that was closed has none. */
static void test_unopened(const char *what) {
    uint64_t refused[1];
    run_open(WORDS("last"));
    want(cannot_open(EBADF) && !opened.is_open, what);
    rrdi_batch_open(&opened, WORDS("last\n"), 0, output, sizeof output, refused, 1, &answer);
    want(cannot_open(EBADF) && !answer.refused, what);
    rrdi_close(&opened);
    want(!opened.is_open, what);
}

static void test_opening(void) {
    test_unopened("a struct of zeros");
    open_file("none");
    want(cannot_open(ENOENT) && !opened.is_open, "no file is opened");
    open_file(".");
    want(cannot_open(EISDIR), "a folder is opened");
    open_file("\xff");
    want(gave(RRDI_CANNOT_OPEN, false, "cannot open"), "a path that is no text is opened");
    put("bad", "RRDI", 4);
    open_file("bad");
    want(gave(RRDI_TRUNCATED, false, "file: truncated at 4") && answer.at == 4 && !opened.is_open,
         "a damaged file is opened");
    run_file("kept", WORDS(CREATE), 0);
    open_file("kept");
    want(gave(RRDI_OK, false, "") && opened.is_open && !answer.system_error, "a file is opened");
    open_file("bad");
    want(answer.fault == RRDI_TRUNCATED && !opened.is_open, "a damaged file is opened in place of another");
    run_file("kept", WORDS("last"), 0);
    want(gave(RRDI_OK, false, "0\n"), "a file that was let go of");
}

static size_t length_of(const char *path) {
    static uint8_t bytes[1 << 16];
    return stands_for(path, bytes);
}

static size_t run_opened(const uint8_t *words, size_t words_length, size_t room) {
    rrdi_run_open(&opened, words, words_length, 0, output, room, &answer);
    return length_of("kept");
}

static void test_run_open(void) {
    open_file("kept");
    test_steps(2, run_opened);
    run_open(WORDS("create\0DS:g:GAUGE:100:U:U"));
    want(answer.fault && length_of("kept") == 224, "a create that is refused, on an open file");
    run_open(WORDS("last"));
    want(gave(RRDI_OK, false, "0\n"), "the database stays after a create that is refused");
    run_open(WORDS(CREATE "\0RRA:MAX:0.5:1:4"));
    want(gave(RRDI_OK, true, "") && length_of("kept") > 224, "create over an open file");
    size_t length = length_of("kept");
    rrdi_close(&opened);
    want(held("kept") == length, "a file that was closed has no log");
    test_unopened("a file that was closed");
}

/* Runs the same commands on an open file and on a file at a path: the same bytes. */
static void test_same_bytes(void) {
    static uint8_t one[1 << 16], other[1 << 16];
    char words[64];
    run_file("one", WORDS(CREATE "\0RRA:AVERAGE:0.5:3:400"), 0);
    run_file("other", WORDS(CREATE "\0RRA:AVERAGE:0.5:3:400"), 0);
    open_file("one");
    for (int at = 1; at <= 100; at++) {
        int size = at % 7 ? snprintf(words, sizeof words, "update%c%d:%d", 0, 10 * at, at)
                          : snprintf(words, sizeof words, "revert");
        run_open((const uint8_t *)words, size);
        uint32_t fault = answer.fault;
        run_file("other", (const uint8_t *)words, size, 0);
        size_t length = bytes_of("other", other);
        want(fault == RRDI_OK && answer.fault == RRDI_OK && stands_for("one", one) == length &&
                 !memcmp(one, other, length),
             "an open file and a file at a path");
    }
    rrdi_close(&opened);
    want(has_bytes("one", other, bytes_of("other", other)), "a file that was closed and a file at a path");
}

static void test_batch_open(void) {
    uint64_t refused[2] = {0, 0};
    run_file("lines", WORDS(CREATE), 0);
    open_file("lines");
    rrdi_batch_open(&opened, WORDS("update 10:1\nupdate 5:1\nlast\n"), 0, output, 20, refused, 2, &answer);
    want(lacks_room(RRDI_NO_ROOM, 28) && held("lines") == 224,
         "a batch on an open file without room for its output");
    uint64_t room = answer.output_needed;
    run_file("lines", WORDS("update\00010:1"), 0);
    want(cannot_open(EAGAIN), "a file stays locked after a batch without room");
    run_file("lines", WORDS("last"), 0);
    want(gave(RRDI_OK, false, "0\n"), "a reader after a batch without room");
    rrdi_batch_open(&opened, WORDS("update 10:1\nupdate 5:1\nlast\n"), 0, output, room, refused, 1, &answer);
    want(gave(RRDI_OK, true, "ERROR: not later than 10\n10\n") && length_of("lines") == 309,
         "a batch on an open file");
    want(answer.refused == 1 && refused[0] == 2 && refused[1] == 0, "the number of the line that an open file refuses");
    run_open(WORDS("last"));
    want(gave(RRDI_OK, false, "10\n"), "last after a batch on an open file");
    rrdi_close(&opened);
}

static void *close_later(void *of) {
    (void)of;
    run_open(WORDS("update\00030:1"));
    bool is_right = gave(RRDI_OK, true, "");
    rrdi_close(&opened);
    return (void *)is_right;
}

/* An open file is locked, for others than readers; it may move to another thread; a forked child does not keep the lock. */
static void test_open_locks(void) {
    struct rrdi_file second = {0};
    pthread_t thread;
    void *is_right;
    run_file("kept", WORDS(CREATE), 0);
    open_file("kept");
    run_file("kept", WORDS("last"), 0);
    want(gave(RRDI_OK, false, "0\n"), "a reader of an open file");
    run_file("kept", WORDS("update\00020:1"), 0);
    want(cannot_open(EAGAIN), "a writer of an open file");
    rrdi_open(NAME("kept"), 0, false, &second, output, sizeof output, &answer);
    want(cannot_open(EAGAIN) && !second.is_open, "a file is opened twice");
    fflush(stdout);
    pid_t child = fork();
    if (!child) {
        pause();
        _exit(0);
    }
    run_open(WORDS("update\00020:1"));
    want(gave(RRDI_OK, true, ""), "an open file beside a forked child");
    if (pthread_create(&thread, NULL, close_later, NULL) || pthread_join(thread, &is_right))
        exit(3);
    want(is_right && !opened.is_open, "an open file in another thread");
    run_file("kept", WORDS("last"), 0);
    want(gave(RRDI_OK, false, "30\n"), "a file that was closed, beside a forked child");
    kill(child, SIGKILL);
    waitpid(child, NULL, 0);
}

static void open_and_update(void) {
    open_file("closed");
    run_open(WORDS("update\00020:2"));
    rrdi_close(&opened);
}

static void update_opened(void) {
    run_open(WORDS("update\00010:1"));
}

/* After a change that failed the next call reads the file again; and a closed standard stream is no open file. */
static void test_open_faults(void) {
    static uint8_t old[1 << 16];
    run_file("limited", WORDS(CREATE), 0);
    size_t size = bytes_of("limited", old);
    open_file("limited");
    with_limit(size, update_opened);
    bool is_right = gave(RRDI_CANNOT_WRITE, false, "cannot write") && answer.system_error;
    want(is_right, "an update of an open file under a limit");
    run_file("limited", WORDS("update\0000:1"), 0);
    want(answer.fault == RRDI_REFUSED && has_bytes("limited", old, size), "a file whose change failed is not locked");
    run_open(WORDS("update\00010:1"));
    want(gave(RRDI_OK, true, "") && length_of("limited") == 309 && !answer.system_error,
         "an update after a change that failed");
    rrdi_close(&opened);
    run_file("closed", WORDS(CREATE), 0);
    want(without_streams(7, open_and_update) && gave(RRDI_OK, true, ""), "an open file without the standard streams");
}

/* A file that still has its mark after it was closed has all changes: the next call that may change it removes the mark. */
static void test_last_write(void) {
    static uint8_t right[1 << 16];
    const char *paths[] = {"marked", "unmarked"};
    for (size_t at = 0; at < 2; at++) {
        run_file(paths[at], WORDS("create\0--step\00010\0--start\0000\0DS:g:GAUGE:100:U:U\0RRA:LAST:0:1:2000"), 0);
        open_file(paths[at]);
        run_open(WORDS("update\00015000:3"));
        run_open(WORDS("update\00015020:4"));
        want(gave(RRDI_OK, true, ""), "a second update of an open file");
        last_error = at ? 0 : EIO;
        rrdi_close(&opened);
        want(!last_error, "a file is closed whose last write fails");
    }
    want(!has_bytes("marked", right, bytes_of("unmarked", right)), "a last write that failed");
    run_file("marked", WORDS("last"), 0);
    want(gave(RRDI_OK, false, "15020\n"), "last after a last write that failed");
    run_file("marked", WORDS("update\00015020:4"), 0);
    want(answer.fault == RRDI_REFUSED && has_bytes("marked", right, bytes_of("unmarked", right)),
         "the file after a last write that failed");
}

static void test_open(void) {
    test_opening();
    test_run_open();
    test_same_bytes();
    test_batch_open();
    test_open_locks();
    test_open_faults();
    test_last_write();
}

/* Runs a command after which a read has failed, unless all was read before. Returns whether a read has failed. */
static bool fail_read(const char *path, int error, int works) {
    read_error = error;
    works_left = works;
    run_file(path, WORDS("last"), 0);
    bool has_failed = !read_error;
    read_error = 0;
    want(has_failed ? answer.system_error == (uint32_t)error : answer.fault == RRDI_OK, "a read that fails");
    return has_failed;
}

/* A read that fails is reported with the error of the system: of a file by the fault of one that can't be opened, and
   of a pipe without a name by its own. */
static void test_reads(void) {
    static uint8_t old[1 << 16];
    const int errors[] = {EIO, ESTALE};
    run_file("pages", WORDS("create\0--step\00010\0--start\0000\0DS:g:GAUGE:100:U:U\0RRA:LAST:0.5:1:1000"), 0);
    size_t size = bytes_of("pages", old);
    int works = 0, ends[2];
    for (size_t at = 0; at < 2; at++) {
        for (works = 0; fail_read("pages", errors[at], works); works++)
            want(answer.fault == RRDI_CANNOT_OPEN && has_bytes("pages", old, size), "a read of a file that fails");
        want(works > 2, "reads that fail after the first one");
        for (works = 0; works < 3; works++) {
            char name[32];
            if (pipe(ends) || write(ends[1], old, size) != (ssize_t)size)
                exit(3);
            close(ends[1]);
            snprintf(name, sizeof name, "/dev/fd/%d", ends[0]);
            want(fail_read(name, errors[at], works) && answer.fault == RRDI_READ, "a read of a pipe that fails");
            close(ends[0]);
        }
    }
}

/* ---- locks and threads */

/* Checks that calls on a locked file wait for so many milliseconds, in pauses of 1 to 5. */
static void test_wait(uint64_t wait, uint64_t wanted) {
    uint64_t refused[1];
    for (int turn = 0; turn < 3; turn++) {
        pauses = paused = longest = 0;
        if (turn == 2)
            rrdi_batch_file(NAME(PATH), WORDS("last\n"), 0, wait, false, output, sizeof output, refused, 1, &answer);
        else
            run_file(PATH, turn ? (const uint8_t *)"last" : (const uint8_t *)"revert", turn ? 4 : 6, wait);
        want(cannot_open(EAGAIN), "a call on a locked file");
        want(paused == wanted && longest <= LONGEST_PAUSE && (!wanted || first == 1) &&
                 (wanted < 1000 || longest == LONGEST_PAUSE),
             "the milliseconds for which a call waits");
    }
}

/* Checks that a wait ends by the clock, whatever else has the processor: at most two tries and one pause too late. */
static void test_busy(uint64_t wait) {
    pauses = paused = tried = 0;
    run_file(PATH, WORDS("last"), wait);
    uint64_t taken = paused * times + tried;
    want(cannot_open(EAGAIN) && taken >= wait && taken <= wait + 2 * try_length + LONGEST_PAUSE * times,
         "the milliseconds for which a call waits on a busy machine");
}

static void test_waits(void) {
    const uint64_t waits[] = {0, 1, 2, 3, 7, 100, 113, 114, 299, 300, 5000, 60001};
    int other = open(PATH, O_RDWR);
    if (other < 0 || flock(other, LOCK_EX))
        exit(3);
    has_no_pauses = true;
    for (size_t at = 0; at < sizeof waits / sizeof *waits; at++)
        test_wait(waits[at], waits[at]);
    test_wait(MOST_WAIT, MOST_WAIT);
    test_wait(MOST_WAIT + 1, MOST_WAIT);
    test_wait(UINT64_MAX, MOST_WAIT);
    for (times = 1; times < 100; times *= 7)
        for (try_length = 0; try_length < 100; try_length = 3 * try_length + 1)
            test_busy(3000);
    times = 1;
    try_length = 0;
    has_no_pauses = false;
    close(other);
}

static void test_locks(void) {
    int other = open(PATH, O_RDWR);
    if (other < 0 || flock(other, LOCK_SH))
        exit(3);
    run_file(PATH, WORDS("last"), 0);
    want(gave(RRDI_OK, false, "10\n"), "last while another process reads");
    pauses = 0;
    run_file(PATH, WORDS("update\00020:1"), 0);
    want(cannot_open(EAGAIN) && !pauses, "an update that does not wait for a lock");
    run_file(PATH, WORDS(CREATE), 0);
    want(cannot_write(EAGAIN) && held(PATH) == 309, "a create over a file that is locked");
    close(other);
    run_file(PATH, WORDS("update\00020:1"), 0);
    want(gave(RRDI_OK, true, ""), "an update after the lock was released");
}

static void *update_all(void *of) {
    struct rrdi_answer own = {0};
    uint8_t text[64], line[64];
    size_t number = (size_t)of, done = 0;
    for (size_t at = 0; at < UPDATES; at++) {
        int size = snprintf((char *)line, sizeof line, "tune%c--heartbeat%cg:%zu", 0, 0, 100 + number * UPDATES + at);
        rrdi_run_file(NAME("shared"), line, size, 0, 60000, false, text, sizeof text, &own);
        done += own.fault == RRDI_OK && own.is_changed;
    }
    return (void *)done;
}

static void test_threads(void) {
    pthread_t threads[THREADS];
    size_t done = 0, reverts = 0;
    run_file("shared", WORDS(CREATE "\0--journal\0001000"), 0);
    want(gave(RRDI_OK, true, ""), "the file that threads share");
    for (size_t at = 0; at < THREADS; at++)
        if (pthread_create(&threads[at], NULL, update_all, (void *)at))
            exit(3);
    for (size_t at = 0; at < THREADS; at++) {
        void *result;
        pthread_join(threads[at], &result);
        done += (size_t)result;
    }
    want(done == THREADS * UPDATES, "the changes of four threads");
    while (run_file("shared", WORDS("revert"), 0), answer.fault == RRDI_OK)
        reverts++;
    want(reverts == THREADS * UPDATES, "each change of the threads is in the file");
}

int main(void) {
    test_run();
    test_bad_files();
    test_batch();
    test_run_file();
    test_batch_file();
    test_streams();
    test_written_streams();
    alarm(MOST_SECONDS);
    test_pipes();
    alarm(0);
    test_limits();
    test_open();
    test_reads();
    test_locks();
    test_waits();
    test_threads();
    return end();
}
