/* SPDX-License-Identifier: MIT OR Apache-2.0 */
/* Tests what is plain C and does more than to name something: rrdi_words, and rrdi_create_new
   on a file system with links and on one without, with each fault, in threads. The calls link, rename and renameat2 go by
   this program. Run the program in an empty folder; it prints each wrong result and the number of tests. */
#define _GNU_SOURCE
#include <dirent.h>
#include <errno.h>
#include <fcntl.h>
#include <pthread.h>
#include <sys/syscall.h>
#include <unistd.h>

#include "checks.h"

#define PATH "new.rrdi"
#define OTHER "held by another program"
#define THREADS 8
#define ROUNDS 20

/* The error of a link, 0 if links work, that of a rename that replaces no file, and that of any other rename; and whether a
 * file appears before a link. */
static int link_error, new_error, rename_error;
static bool is_overtaken;

int link(const char *from, const char *to) {
    if (is_overtaken)
        put(to, OTHER, strlen(OTHER));
    if (link_error) {
        errno = link_error;
        return -1;
    }
    return syscall(SYS_linkat, AT_FDCWD, from, AT_FDCWD, to, 0);
}

int renameat2(int from_folder, const char *from, int to_folder, const char *to, unsigned how) {
    if (new_error) {
        errno = new_error;
        return -1;
    }
    return syscall(SYS_renameat2, from_folder, from, to_folder, to, how);
}

int rename(const char *from, const char *to) {
    if (rename_error) {
        errno = rename_error;
        return -1;
    }
    return syscall(SYS_renameat2, AT_FDCWD, from, AT_FDCWD, to, 0);
}

static size_t files(void) {
    DIR *folder = opendir(".");
    size_t found = 0;
    for (struct dirent *entry; folder && (entry = readdir(folder));)
        found += entry->d_name[0] != '.';
    closedir(folder);
    return found;
}

/* ---- the words */

static void test_words_of(size_t words_count, const char *const *words, const char *wanted, size_t wanted_length) {
    uint8_t room[32];
    want(rrdi_words(words_count, words, NULL, 0) == wanted_length, "the length of words");
    for (size_t size = 0; size < sizeof room; size++) {
        memset(room, 'x', sizeof room);
        size_t length = rrdi_words(words_count, words, room, size);
        want(length == wanted_length && (size < length || !memcmp(room, wanted, length)), "words in a room");
        size_t end = sizeof room;
        while (end > 0 && room[end - 1] == 'x')
            end--;
        want(end <= size, "words write behind their room");
    }
}

static void test_words(void) {
    const char *words[] = {"update", "10:1", "", "20:2"};
    test_words_of(0, words, "", 0);
    test_words_of(1, words, "update", 6);
    test_words_of(2, words, "update\00010:1", 11);
    test_words_of(3, words, "update\00010:1\0", 12);
    test_words_of(4, words, "update\00010:1\0\00020:2", 17);
    test_words_of(1, words + 2, "", 0);
    test_words_of(2, words + 2, "\00020:2", 5);
}

/* A call takes the words that rrdi_words makes. */
static void test_words_in_calls(void) {
    const char *create[] = {"create", "--step", "10", "--start", "0", "DS:g:GAUGE:100:U:U", "RRA:LAST:0.5:1:4"};
    const char *update[] = {"update", "10:1", "20:2"}, *last[] = {"last"};
    uint8_t words[128];
    size_t size = rrdi_words(7, create, words, sizeof words);
    want(size == sizeof CREATE - 1 && !memcmp(words, CREATE, size), "the words of a create");
    run_file(PATH, words, size, 0);
    want(gave(RRDI_OK, true, ""), "create by words");
    run_file(PATH, words, rrdi_words(3, update, words, sizeof words), 0);
    want(gave(RRDI_OK, true, ""), "update by words");
    open_file(PATH);
    run_open(words, rrdi_words(1, last, words, sizeof words));
    want(gave(RRDI_OK, false, "20\n"), "last of an open file by words");
    rrdi_close(&opened);
    unlink(PATH);
}

/* ---- create */

static void create(const char *path, size_t path_length) {
    rrdi_create_new(path, path_length, WORDS(CREATE), 0, 0, false, output, sizeof output, &answer);
}

/* Checks that a create ends with a fault of this error, leaves so many files in the folder, and does not print
   anything. */
static void test_error(const char *path, size_t path_length, int error, size_t left, const char *what) {
    answer.refused = answer.at = answer.file_length = 7;
    create(path, path_length);
    want(cannot_write(error), what);
    want(!answer.refused && !answer.at && !answer.file_length && files() == left, what);
}

/* The number of the next file that this process opens. */
static int next_number(void) {
    int number = dup(1);
    close(number);
    return number;
}

/* Makes a database where there is none: the same file as rrdi_run_file, and no descriptor stays. */
static void test_made(const char *what) {
    static uint8_t bytes[1 << 16];
    struct stat one, other;
    int number = next_number();
    run_file("by-path", WORDS(CREATE), 0);
    size_t size = bytes_of("by-path", bytes);
    create(NAME(PATH));
    want(next_number() == number, "a descriptor that stays");
    want(gave(RRDI_OK, true, "") && !answer.system_error && has_bytes(PATH, bytes, size) && files() == 2, what);
    want(!stat("by-path", &one) && !stat(PATH, &other) && one.st_mode == other.st_mode && other.st_nlink == 1, what);
    run_file(PATH, WORDS("update\00010:1"), 0);
    want(gave(RRDI_OK, true, "") && held(PATH) == 309, "an update of a file that was made");
    test_error(NAME(PATH), EEXIST, 2, what);
    want(held(PATH) == 309, "a file that is there stays as it is");
    unlink("by-path");
    unlink(PATH);
}

/* What is at the path stays, whatever it is. */
static void test_taken(void) {
    put("text", OTHER, strlen(OTHER));
    test_error(NAME("text"), EEXIST, 1, "a file of another program");
    want(has_bytes("text", (const uint8_t *)OTHER, strlen(OTHER)), "the file of another program");
    rrdi_create_new(NAME("text"), WORDS(CREATE), 0, 0, false, output, 11, &answer);
    want(lacks_room(RRDI_CANNOT_WRITE, 12), "a fault without room for its text");
    unlink("text");
    want(!symlink("nowhere", "leads-nowhere"), "a link");
    test_error(NAME("leads-nowhere"), EEXIST, 1, "a link that leads nowhere");
    unlink("leads-nowhere");
    test_error(NAME("."), EEXIST, 0, "the path of a folder");
}

/* A file that another program makes during the call stays as it is. */
static void test_overtaken(const char *what) {
    is_overtaken = true;
    test_error(NAME(PATH), EEXIST, 1, what);
    is_overtaken = false;
    want(has_bytes(PATH, (const uint8_t *)OTHER, strlen(OTHER)), what);
    unlink(PATH);
}

static void test_paths(void) {
    static char path[5000];
    memset(path, 'x', sizeof path);
    test_error(NAME("nowhere/file"), ENOENT, 0, "a path in no folder");
    test_error(NAME("a\0b"), EINVAL, 0, "a path with a zero byte");
    test_error(path, sizeof path, ENAMETOOLONG, 0, "a path that is too long");
    test_error(path, 4096, ENAMETOOLONG, 0, "a path that is too long by one byte");
    test_error(path, 4095, ENAMETOOLONG, 0, "a name that is too long");
    test_error(path, 255, ENAMETOOLONG, 0, "a name without room for another one");
    create(path, 220);
    want(gave(RRDI_OK, true, "") && files() == 1, "a long name");
    path[220] = 0;
    unlink(path);
    create(NAME("\xff"));
    want(answer.fault && files() == 0, "a path that is no text");
}

static void test_refused(void) {
    static const char *const others[] = {"update\00010:1", "creates", "creat", "last", ""};
    for (size_t at = 0; at < sizeof others / sizeof *others; at++) {
        size_t size = at ? strlen(others[at]) : 11;
        rrdi_create_new(NAME(PATH), (const uint8_t *)others[at], size, 0, 0, false, output, sizeof output, &answer);
        want(gave(RRDI_USAGE, false, "usage") && !answer.system_error && files() == 0, "another command");
    }
    rrdi_create_new(NAME(PATH), WORDS("create"), 0, 0, false, output, sizeof output, &answer);
    want(answer.fault && files() == 0, "a create without a source");
    struct rrdi_answer without = answer;
    rrdi_create_new(NAME(PATH), (const uint8_t *)"creates", 6, 0, 0, false, output, sizeof output, &answer);
    want(answer.fault == without.fault && answer.output_length == without.output_length, "a byte after the words");
    rrdi_create_new(NAME(PATH), WORDS(CREATE "\0RRA:LAST:0.5:1:x"), 0, 0, false, output, sizeof output, &answer);
    want(answer.fault == RRDI_BAD_WORD && answer.output_length > 10 && files() == 0, "a create of an unreadable word");
}

/* A name that is left of a call that was killed is not used again. */
static void test_left(void) {
    char left[64];
    snprintf(left, sizeof left, PATH ".new-%ld-0", (long)getpid());
    put(left, OTHER, strlen(OTHER));
    create(NAME(PATH));
    want(gave(RRDI_OK, true, "") && files() == 2 && has_bytes(left, (const uint8_t *)OTHER, strlen(OTHER)),
         "a name that is left");
    unlink(left);
    unlink(PATH);
}

static void create_one(void) {
    create(NAME(PATH));
}

static void test_limit(void) {
    with_limit(100, create_one);
    bool is_right = gave(RRDI_CANNOT_WRITE, false, "cannot write") && answer.system_error;
    want(is_right && files() == 0, "a create under a limit on the size of files");
}

static void test_links(void) {
    const int none[] = {EPERM, EOPNOTSUPP, ENOSYS, EMLINK};
    for (size_t at = 0; at < 2 * sizeof none / sizeof *none; at++) {
        link_error = none[at / 2];
        new_error = at % 2 ? EINVAL : 0;
        test_made("a file system without links");
        test_overtaken("a file that appears where there are no links");
    }
    rename_error = EIO;
    test_error(NAME(PATH), EIO, 0, "a rename that fails");
    new_error = rename_error = 0;
    link_error = EIO;
    test_error(NAME(PATH), EIO, 0, "a link that fails");
    want(explains(PATH ": input/output error"), "why a link fails");
    link_error = EBADF;
    test_error(NAME(PATH), EBADF, 0, "a link that fails");
    want(explains(PATH ": bad file descriptor"), "why a link fails");
    link_error = 0;
}

/* Without a standard input the first file that a call opens has the number 0, which is free again afterwards. */
static void test_closed_input(void) {
    int input = dup(0);
    for (int has_links = 0; has_links < 2; has_links++) {
        close(0);
        link_error = has_links ? 0 : EPERM;
        new_error = EINVAL;
        create(NAME(PATH));
        want(gave(RRDI_OK, true, "") && files() == 1 && dup(1) == 0, "a create without a standard input");
        unlink(PATH);
    }
    link_error = new_error = 0;
    dup2(input, 0);
    close(input);
}

static void *create_alone(void *of) {
    struct rrdi_answer own = {0};
    uint8_t text[64];
    (void)of;
    rrdi_create_new(NAME(PATH), WORDS(CREATE), 0, 0, false, text, sizeof text, &own);
    bool is_late = own.fault == RRDI_CANNOT_WRITE && own.system_error == EEXIST;
    return (void *)(size_t)(own.fault == RRDI_OK ? 1 : (is_late ? 0 : THREADS + 1));
}

/* Of several threads that make one file, one does. */
static void test_threads(void) {
    for (int round = 0; round < ROUNDS; round++) {
        pthread_t threads[THREADS];
        size_t made = 0;
        link_error = round % 2 ? EPERM : 0;
        new_error = round % 4 == 3 ? EINVAL : 0;
        for (size_t at = 0; at < THREADS; at++)
            if (pthread_create(&threads[at], NULL, create_alone, NULL))
                exit(3);
        for (size_t at = 0; at < THREADS; at++) {
            void *result;
            pthread_join(threads[at], &result);
            made += (size_t)result;
        }
        want(made == 1 && files() == 1 && held(PATH) == 224, "threads that make one file");
        unlink(PATH);
    }
    link_error = new_error = 0;
}

static int open_files(void) {
    int found = 0;
    for (int file = 0; file < 64; file++)
        found += fcntl(file, F_GETFD) >= 0;
    return found;
}

int main(void) {
    int before = open_files();
    test_words();
    test_words_in_calls();
    test_made("a file system with links");
    test_overtaken("a file that appears");
    test_taken();
    test_paths();
    test_refused();
    test_left();
    test_limit();
    test_links();
    test_closed_input();
    test_threads();
    want(open_files() == before, "the descriptors that are open at the end");
    return end();
}
