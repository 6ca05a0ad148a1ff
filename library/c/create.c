/* SPDX-License-Identifier: MIT OR Apache-2.0 */
/* Creates a database, and never in place of a file that is there.
 *
 * The database is made under another name in the same directory, and a link gives it its own name when it is whole. A link
 * fails if there is a file of this name. */
#define _GNU_SOURCE
#include <errno.h>
#include <fcntl.h>
#include <stdio.h>
#include <sys/file.h>
#include <sys/stat.h>
#include <unistd.h>

#include "internal.h"

/* Room for the longest path and its end, and for what the other name has besides. */
#define PATH_ROOM 4096
#define OTHER_ROOM (PATH_ROOM + 48)
#define NUMBER_ROOM 32

static bool is_create(const uint8_t *words, size_t words_length) {
    return words_length >= 6 && !memcmp(words, "create", 6) && (words_length == 6 || !words[6]);
}

static bool is_printable(const char *path, size_t path_length) {
    for (size_t at = 0; at < path_length; at++) {
        if (path[at] < ' ' || path[at] > '~')
            return false;
    }
    return path_length && path_length < PATH_ROOM;
}

/* Explains an errno, as the functions of rrdi_c do: the path, and why. A path with other characters than the printable ones of
 * ASCII is left out. */
static void explain(const char *path, size_t path_length, int error, struct rrdi_answer *answer) {
    char *text = (char *)answer->explanation;
    const char *why = strerrordesc_np(error);
    size_t at = 0;
    if (!why)
        return;
    if (is_printable(path, path_length))
        at = (size_t)snprintf(text, RRDI_EXPLANATION, "%.*s: ", (int)path_length, path);
    answer->explanation_length = at + (size_t)snprintf(text + at, RRDI_EXPLANATION - at, "%s", why);
    if (text[at + 1] >= 'a' && text[at] >= 'A' && text[at] <= 'Z')
        text[at] = (char)(text[at] - 'A' + 'a');
}

/* Puts the path in place of the one by which the file was made, which tells nobody anything, where an explanation begins with
 * that. Its room on the stack is not that of rrdi_run_file's callers. */
__attribute__((noinline)) static void name_path(const char *path, size_t path_length, const char *made, struct rrdi_answer *answer) {
    char why[RRDI_EXPLANATION], *text = (char *)answer->explanation;
    size_t at = 0, begin = strlen(made) + 2, length;
    if (answer->explanation_length < begin || memcmp(text, made, begin - 2))
        return;
    length = answer->explanation_length - begin;
    memcpy(why, text + begin, length);
    if (is_printable(path, path_length))
        at = (size_t)snprintf(text, RRDI_EXPLANATION, "%.*s: ", (int)path_length, path);
    if (length > RRDI_EXPLANATION - at)
        length = RRDI_EXPLANATION - at;
    memcpy(text + at, why, length);
    answer->explanation_length = at + length;
}

/* Makes a string of the path of a file that is not there yet. Returns 0 or an errno. */
static int read_path(const char *path, size_t path_length, char *name) {
    if (path_length >= PATH_ROOM)
        return ENAMETOOLONG;
    if (path_length && memchr(path, 0, path_length))
        return EINVAL;
    if (path_length)
        memcpy(name, path, path_length);
    name[path_length] = 0;
    return access(name, F_OK) ? 0 : EEXIST;
}

/* Takes a name by an empty file. Returns a descriptor, or -1 and sets errno: EEXIST if the name is taken. It is above those of the
 * standard streams: if one of these is closed, what the program writes to it must not land in the file. */
static int take_name(const char *name) {
    int descriptor = open(name, O_RDWR | O_CREAT | O_EXCL | O_CLOEXEC, 0666), higher, error;
    if (descriptor < 0 || descriptor > STDERR_FILENO)
        return descriptor;
    higher = fcntl(descriptor, F_DUPFD_CLOEXEC, STDERR_FILENO + 1);
    error = errno;
    close(descriptor);
    if (higher < 0)
        unlink(name);
    errno = error;
    return higher;
}

/* Takes another name beside the name by an empty file, and keeps that open. mkstemp would do the same, but nobody else could
 * read its file. Returns 0 or an errno. */
static int take_other(const char *name, char *other, int *descriptor) {
    unsigned number = 0;
    do {
        snprintf(other, OTHER_ROOM, "%s.new-%ld-%u", name, (long)getpid(), number++);
        *descriptor = take_name(other);
    } while (*descriptor < 0 && errno == EEXIST);
    return *descriptor < 0 ? errno : 0;
}

static bool is_utf_8(const char *text) {
    for (const unsigned char *at = (const unsigned char *)text; *at;) {
        unsigned first = *at, second = at[1], more = (first >= 0x80) + (first >= 0xe0) + (first >= 0xf0);
        if ((first >= 0x80 && first < 0xc2) || first > 0xf4 || (first == 0xe0 && second < 0xa0) ||
            (first == 0xed && second > 0x9f) || (first == 0xf0 && second < 0x90) || (first == 0xf4 && second > 0x8f))
            return false;
        for (at++; more; more--, at++) {
            if ((*at & 0xc0) != 0x80)
                return false;
        }
    }
    return true;
}

/* Returns a path that leads to the open file, whatever has its name: whoever may write the directory may put a link to any file
 * there, and `create` replaces a file. Without /proc it is the name, and so is one that rrdi_run_file refuses. */
static const char *path_of(int descriptor, const char *other, char *by_number) {
    snprintf(by_number, NUMBER_ROOM, "/proc/self/fd/%d", descriptor);
    return !is_utf_8(other) || access(by_number, F_OK) ? other : by_number;
}

/* Checks whether another program has filled the empty file with which this one took a name, or has given the name to a file of
 * its own. */
static bool is_taken(int descriptor, const char *name) {
    struct stat found, there;
    return !fstat(descriptor, &found) && !lstat(name, &there) &&
           (found.st_size || found.st_dev != there.st_dev || found.st_ino != there.st_ino);
}

/* Gives the file that has the other name its name where there are no links: in one step or, where the system cannot, in place
 * of an empty file, which takes the name first, and after a kill still has it. Whoever creates a database at the name in
 * between waits for the lock of the empty file, and finds then that the file has been replaced; or had the lock before, and
 * keeps its file. Returns 0 or an errno: EEXIST if the name is taken. */
static int rename_to_new(const char *other, const char *name) {
    int error = 0, descriptor;
    if (!renameat2(AT_FDCWD, other, AT_FDCWD, name, RENAME_NOREPLACE))
        return 0;
    if (errno == EEXIST)
        return EEXIST;
    descriptor = take_name(name);
    if (descriptor < 0)
        return errno;
    if ((flock(descriptor, LOCK_EX | LOCK_NB) && errno == EWOULDBLOCK) || is_taken(descriptor, name)) {
        error = EEXIST;
    } else if (rename(other, name)) {
        error = errno;
        if (!is_taken(descriptor, name))
            unlink(name);
    }
    flock(descriptor, LOCK_UN); /* a forked child may have the descriptor */
    close(descriptor);
    return error;
}

/* Gives the file that has the other name its name, and takes the other one away. Returns 0 or an errno: EEXIST if the name is
 * taken. */
static int give_name(const char *other, const char *name) {
    int error = link(other, name) ? errno : 0;
    if (error == EPERM || error == EOPNOTSUPP || error == ENOSYS || error == EMLINK)
        error = rename_to_new(other, name);
    unlink(other);
    return error;
}

/* Waits until the disk has stored the names of the directory of a file. Returns 0 or an errno. */
static int flush_directory(char *name) {
    char *end = strrchr(name, '/');
    int descriptor, error;
    if (end)
        end[1] = 0;
    descriptor = open(end ? name : ".", O_RDONLY | O_DIRECTORY | O_CLOEXEC);
    if (descriptor < 0)
        return errno;
    error = fsync(descriptor) && errno != EINVAL ? errno : 0; /* some file systems store names at once */
    close(descriptor);
    return error;
}

void rrdi_create_new(const char *path, size_t path_length, const uint8_t *words, size_t words_length, uint64_t now,
                     uint64_t wait, bool syncs, uint8_t *output, size_t output_room, struct rrdi_answer *answer) {
    char name[PATH_ROOM], other[OTHER_ROOM], by_number[NUMBER_ROOM];
    const char *made;
    int descriptor = -1;
    path_length = path ? path_length : 0;
    if (!words || !is_create(words, words_length)) {
        rrdi_refuse(RRDI_USAGE, 0, "", output, output_room, answer);
        return;
    }
    int error = read_path(path, path_length, name);
    if (!error)
        error = take_other(name, other, &descriptor);
    if (!error) {
        made = path_of(descriptor, other, by_number);
        rrdi_run_file(made, strlen(made), words, words_length, now, wait, syncs, output, output_room, answer);
        close(descriptor);
        if (answer->fault) {
            name_path(path, path_length, made, answer);
            unlink(other);
            return;
        }
        error = give_name(other, name);
        if (!error && syncs)
            error = flush_directory(name);
    }
    if (error) {
        rrdi_refuse(RRDI_CANNOT_WRITE, error, "", output, output_room, answer);
        explain(path, path_length, error, answer);
    }
}
