/* SPDX-License-Identifier: MIT OR Apache-2.0 */
/* The system calls of the C library, each right, or with the bug that the environment names by BUG: those that a
   contract cannot refuse, because it says what rrdi asks of the system, and not how the system is asked. A copy of
   librrdi.a calls these functions in place of the C library's, whose names follow `planted_`.

   opening   truncates, creates, reads-to-write, private, inherited, low
   locks     unlocked, shared, own, waits, other-lock, keeps-lock, gives-up-early, gives-up-late
   pauses    microseconds, interrupted
   facts     no-links, same-file, all-named, old-length
   others    leaks, no-sync, hides-sync, keeps-length, no-reason */
#define _GNU_SOURCE
#include <errno.h>
#include <fcntl.h>
#include <stdarg.h>
#include <stdbool.h>
#include <stdint.h>
#include <stdlib.h>
#include <string.h>
#include <sys/file.h>
#include <sys/stat.h>
#include <time.h>
#include <unistd.h>

static bool has(const char *bug) {
    const char *named = getenv("BUG");
    return named && !strcmp(named, bug);
}

/* ---- opening */

static int flags_of(int flags) {
    if (has("truncates") && flags & O_CREAT)
        flags |= O_TRUNC;
    if (has("creates") && (flags & O_ACCMODE) == O_RDWR)
        flags |= O_CREAT;
    if (has("reads-to-write") && (flags & O_ACCMODE) == O_RDONLY)
        flags |= O_RDWR;
    if (has("inherited"))
        flags &= ~O_CLOEXEC;
    return flags;
}

int planted_open64(const char *path, int flags, ...) {
    va_list rest;
    va_start(rest, flags);
    int mode = va_arg(rest, int);
    va_end(rest);
    int file = open64(path, flags_of(flags), has("private") ? mode & 0700 : mode);
    if (file < 0 && has("no-reason"))
        errno = EIO;
    return file;
}

int planted_open(const char *path, int flags, ...) __attribute__((alias("planted_open64")));

int planted_fcntl64(int file, int what, ...) {
    va_list rest;
    va_start(rest, what);
    long with = va_arg(rest, long);
    va_end(rest);
    if (has("low") && what == F_DUPFD_CLOEXEC)
        with = 0;
    if (has("inherited") && what == F_DUPFD_CLOEXEC)
        what = F_DUPFD;
    return fcntl(file, what, with);
}

int planted_fcntl(int file, int what, ...) __attribute__((alias("planted_fcntl64")));

int planted_close(int file) {
    return has("leaks") ? 0 : close(file);
}

/* ---- locks */

/* Locks the file by a descriptor that is open for a moment only. */
static int lock_other(int file, int how) {
    char path[32] = "/proc/self/fd/";
    size_t at = strlen(path);
    for (int divisor = 10000; divisor; divisor /= 10)
        if (file >= divisor || divisor == 1)
            path[at++] = '0' + file / divisor % 10;
    int other = open64(path, O_RDONLY | O_CLOEXEC), got = flock(other, how), error = errno;
    close(other);
    errno = error;
    return got;
}

int planted_flock(int file, int how) {
    if (has("unlocked") || (has("keeps-lock") && how == LOCK_UN))
        return 0;
    if (has("other-lock"))
        return lock_other(file, how);
    if (has("shared") && how & LOCK_EX)
        how ^= LOCK_EX | LOCK_SH;
    if (has("own") && how & LOCK_SH)
        how ^= LOCK_EX | LOCK_SH;
    if (has("waits"))
        how &= ~LOCK_NB;
    return flock(file, how);
}

/* ---- pauses */

int planted_nanosleep(const struct timespec *length, struct timespec *left) {
    struct timespec asked = *length;
    if (has("microseconds"))
        asked.tv_nsec /= 1000;
    int got = nanosleep(&asked, left);
    return has("interrupted") ? 0 : got;
}

/* ---- facts */

int planted_statx(int file, const char *path, int flags, unsigned mask, struct statx *found) {
    static __thread uint64_t before;
    int got = statx(file, path, has("no-links") ? flags | AT_SYMLINK_NOFOLLOW : flags, mask, found);
    if (got < 0 && has("all-named") && errno == EACCES)
        errno = ENOENT;
    if (got == 0 && has("same-file"))
        found->stx_ino = found->stx_dev_major = found->stx_dev_minor = 0;
    if (got == 0 && has("old-length")) {
        uint64_t now = found->stx_size;
        found->stx_size = before && file >= 0 ? before : now;
        before = file < 0 ? now : before;
    }
    return got;
}

/* ---- others */

int planted_fdatasync(int file) {
    int got = has("no-sync") ? 0 : fdatasync(file);
    return has("hides-sync") ? 0 : got;
}

int planted_ftruncate64(int file, off_t length) {
    return has("keeps-length") ? 0 : ftruncate64(file, length);
}

int planted_ftruncate(int file, off_t length) __attribute__((alias("planted_ftruncate64")));

ssize_t planted_pwrite64(int file, const void *bytes, size_t size, off_t at) {
    bool is_last = size == 4 && !memcmp(bytes, "RRDI", 4);
    if (is_last && has("gives-up-early"))
        flock(file, LOCK_UN);
    ssize_t got = pwrite64(file, bytes, size, at);
    if (is_last && has("gives-up-late"))
        flock(file, LOCK_UN);
    return got;
}

ssize_t planted_pwrite(int file, const void *bytes, size_t size, off_t at) __attribute__((alias("planted_pwrite64")));
