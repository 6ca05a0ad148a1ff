/* SPDX-License-Identifier: MIT OR Apache-2.0 */
/* A small program with rrdi's arguments and a layout of its own, on which tests/test_planted.py tries the tests. It keeps
   rrdi's promises on files, locks, kills and syncs, unless the environment names faults:

       FAKE_BUG=NAME[,NAME..] fake COMMAND FILE ..

   A file has a header of 64 bytes (mark, state, length, position of the tail, last time, checksum, rows, entries), rows of
   16 bytes and at most 16 entries of 96 bytes. A change writes the old bytes after the longer one of the old and the new
   database, marks the header, writes the new rows, and then the new header. If the next run that may change a file finds
   such a mark, it takes the change back. A run that only reads finds the old database in the bytes, and repairs nothing. */
#define _GNU_SOURCE
#include <errno.h>
#include <fcntl.h>
#include <stdint.h>
#include <stdio.h>
#include <stdlib.h>
#include <string.h>
#include <sys/file.h>
#include <linux/magic.h>
#include <sys/stat.h>
#include <sys/vfs.h>
#include <time.h>
#include <unistd.h>

#define HEAD 64
#define ROW 16
#define ENTRY 96
#define ENTRIES 16
#define PAGE 4096

struct head {
    char mark[4];
    uint32_t state;
    uint64_t length, tail, last, sum, rows, entries, tuned;
};

struct base {
    unsigned char *bytes;
    size_t length;
};

static int syncs, number_of_sync;

static int has(const char *bug) {
    const char *text = getenv("FAKE_BUG");
    size_t length = strlen(bug);
    for (; text && *text; text = strchr(text, ',') ? strchr(text, ',') + 1 : NULL)
        if (!strncmp(text, bug, length) && (text[length] == ',' || !text[length]))
            return 1;
    return 0;
}

static int tell(const char *text) {
    if (has("wrong-text"))
        text = "something else";
    fprintf(stderr, "ERROR: %s\n", text);
    return has("wrong-status") && !strncmp(text, "cannot", 6) ? 0 : 1;
}

/* Returns the reason for an error number, as the manual has it. */
static const char *reason_of(int number) {
    switch (number) {
    case ENOENT: return "no such file or directory";
    case EACCES: return "permission denied";
    case EROFS: return "read-only file system";
    case ENOSPC: return "no space left on device";
    case EFBIG: return "file too large";
    case EISDIR: return "is a directory";
    case EEXIST: return "another program has written the file meanwhile";
    default: return strerror(number);
    }
}

/* Reports a fault of FILE, and the reason in another line. */
static int tell_why(const char *text, const char *path, const char *reason) {
    int status = tell(text);
    if (!has("no-reason"))
        fprintf(stderr, "rrdi: %s: %s\n", path, has("wrong-reason") ? "something else" : reason);
    return status;
}

static int lock_error;

/* Returns for how many milliseconds a run waits for a lock. */
static long wait_of(void) {
    const char *text = getenv("RRDI_WAIT");
    errno = 0;
    unsigned long seconds = text && *text && strspn(text, "0123456789") == strlen(text) ? strtoul(text, NULL, 10) : 5;
    if (errno)
        seconds = 5;
    return has("never-waits") ? 0 : 1000 * (long)(seconds < 3600 ? seconds : 3600);
}

/* Returns the reason of a run that waited for a lock, or could not lock the file. */
static const char *in_use(void) {
    static char text[80];
    if (lock_error)
        return reason_of(lock_error);
    long seconds = wait_of() / 1000;
    snprintf(text, sizeof text, "in use by another program (waited %ld second%s)", seconds, seconds == 1 ? "" : "s");
    return text;
}

static struct head *head_of(struct base base) {
    return (struct head *)base.bytes;
}

static uint64_t sum_of(struct base base) {
    uint64_t sum = base.length + head_of(base)->last * 31 + head_of(base)->tuned;
    for (size_t at = HEAD; at < base.length; at++)
        sum = (sum ^ base.bytes[at]) * 1099511628211u;
    return sum;
}

/* ---- calls */

static ssize_t once(int file, const unsigned char *bytes, size_t count, off_t at) {
    ssize_t got = -1;
    for (int tries = 0; tries <= 1000; tries++) {
        got = pwrite(file, bytes, count, at);
        if (got >= 0 || errno != EINTR)
            break;
    }
    return got;
}

static int put(int file, const unsigned char *bytes, size_t count, off_t at) {
    size_t done = 0;
    while (done < count) {
        ssize_t got = once(file, bytes + done, count - done, at + done);
        if (got < 0)
            return has("hides-failure") || (done && has("hides-second")) ? 0 : -1;
        done += got;
        if (has("hides-short"))
            return 0;
    }
    return 0;
}

static int cut(int file, size_t length) {
    return ftruncate(file, length);
}

static int settle_on_disk(int file) {
    char name[20];
    if (!syncs)
        return 0;
    snprintf(name, sizeof name, "no-sync-%d", ++number_of_sync);
    return has(name) ? 0 : (has("hides-sync") ? fsync(file) & 0 : fsync(file));
}

static struct base read_whole(int file) {
    struct stat found;
    struct base base = {NULL, 0};
    if (fstat(file, &found) || !(base.bytes = calloc(1, (S_ISREG(found.st_mode) ? found.st_size : 1 << 20) + HEAD)))
        return base;
    if (!S_ISREG(found.st_mode)) {
        ssize_t got;
        while ((got = read(file, base.bytes + base.length, 4096)) > 0)
            base.length += got;
        return base;
    }
    while (base.length < (size_t)found.st_size) {
        ssize_t got = pread(file, base.bytes + base.length, found.st_size - base.length, base.length);
        if (got < 0 && errno == EINTR)
            continue;
        if (got <= 0) {
            base.bytes = NULL;
            break;
        }
        base.length += got;
    }
    return base;
}

static int locked_file = -1, lacks_locks;

/* Checks whether an error of a lock says that the system has no locks. */
static int has_no_locks(int number) {
    int is_free = number != EWOULDBLOCK && number != EINTR;
    return number == ENOSYS || number == EOPNOTSUPP || number == EINVAL || (has("goes-on-unlocked") && is_free) ||
           (has("ignores-holder") && number == EWOULDBLOCK);
}

static int lock(int file, int how) {
    long left = wait_of(), next = has("sleeps-long") ? 100 : 1;
    while (flock(file, how | LOCK_NB)) {
        if (has_no_locks(errno) || (errno == EINTR && has("forgets-lock"))) {
            lacks_locks = 1;
            return has("needs-locks") ? -1 : 0;
        }
        lock_error = errno == EWOULDBLOCK || errno == EINTR ? 0 : errno;
        if (lock_error || left <= 0)
            return -1;
        long pause = next < left ? next : left;
        if (!has("never-sleeps"))
            usleep(pause * 1000);
        left -= pause;
        next = next * 2 > 5 ? 5 : next * 2;
    }
    locked_file = file;
    return 0;
}

/* A child that was forked meanwhile has the file open too, so that to close the file would not be enough. */
static void unlock(void) {
    if (locked_file >= 0 && !has("keeps-lock"))
        flock(locked_file, LOCK_UN);
    locked_file = -1;
}

/* ---- a change */

static int put_pages(int file, struct base old, struct base new) {
    for (size_t at = has("first-page-at-once") ? PAGE : 0; at < new.length; at += PAGE) {
        if (has("slow"))
            usleep(500);
        size_t begin = at ? at : HEAD, end = at + PAGE < new.length ? at + PAGE : new.length;
        int is_same = end <= old.length && !memcmp(old.bytes + begin, new.bytes + begin, end - begin);
        if (begin < end && (!is_same || has("writes-all")) && put(file, new.bytes + begin, end - begin, begin))
            return -1;
    }
    return 0;
}

/* With a fault, a second try takes half-written pages for old ones. */
static int put_all_pages(int file, struct base old, struct base new, size_t tail) {
    int error = put_pages(file, old, new);
    if (!error || !has("saves-again"))
        return error;
    struct base present = read_whole(file);
    memcpy(present.bytes, old.bytes, HEAD);
    return put(file, present.bytes, old.length, tail) || put_pages(file, old, new);
}

/* Writes a file whose bytes are not a database: the header at last, so that before that the file begins with zeros. */
static int store_bare(int file, struct base new) {
    return ((!has("keeps-other-bytes") && cut(file, 0)) || put(file, new.bytes + HEAD, new.length - HEAD, HEAD) ||
            put(file, new.bytes, HEAD, 0) || cut(file, new.length))
               ? -1
               : settle_on_disk(file);
}

static int store(int file, struct base old, struct base new, int is_database) {
    struct head marked;
    head_of(new)->length = new.length;
    head_of(new)->sum = sum_of(new);
    if (!is_database)
        return store_bare(file, new);
    size_t most = old.length > new.length ? old.length : new.length, tail = ((most + PAGE - 1) / PAGE) * PAGE;
    memcpy(&marked, old.bytes, HEAD);
    marked.state = 1;
    marked.tail = tail;
    if (has("no-tail"))
        return put_pages(file, old, new) || put(file, new.bytes, HEAD, 0) || cut(file, new.length);
    if (has("commits-early") && put(file, new.bytes, HEAD, 0))
        return -1;
    if (put(file, old.bytes, old.length, tail) || settle_on_disk(file)) {
        cut(file, old.length);
        return -1;
    }
    if (has("marks-late") && put_pages(file, old, new))
        return -1;
    size_t front = has("first-page-at-once") && new.length > PAGE ? PAGE : HEAD;
    int is_marked = has("marks-by-length") || (!put(file, (unsigned char *)&marked, HEAD, 0) && !settle_on_disk(file));
    if (!is_marked || put_all_pages(file, old, new, tail) || settle_on_disk(file) || (has("cuts-early") && cut(file, new.length)) ||
        put(file, new.bytes, front, 0) || settle_on_disk(file))
        return -1;
    cut(file, new.length);
    return settle_on_disk(file);
}

/* Returns whether a file is complete. If not, its change has to be taken back, or the file truncated. */
static int is_settled(struct base base) {
    return base.length < HEAD || memcmp(base.bytes, "RRDI", 4) ||
           (head_of(base)->state == 0 && base.length <= head_of(base)->length);
}

/* Writes the header as it was read, so that the disk has what the cache has before anything else changes. */
static int store_header(int file, struct base base) {
    if (has("trusts-cache"))
        return 0;
    return (!has("syncs-cache") && put(file, base.bytes, HEAD, 0)) || settle_on_disk(file);
}

static int settle(int file) {
    struct base base = read_whole(file);
    if (!base.bytes)
        return -1;
    if (is_settled(base) || has("stays-marked"))
        return 0;
    struct head old = *head_of(base);
    size_t tail = head_of(base)->state ? head_of(base)->tail : (has("marks-by-length") ? PAGE : 0);
    if (store_header(file, base))
        return -1;
    if (tail) {
        memcpy(&old, base.bytes + tail, HEAD);
        if (has("takes-head-first") && put(file, base.bytes + tail, HEAD, 0))
            return -1;
        syncs &= !has("no-sync-to-recover");
        if (put(file, base.bytes + tail + HEAD, old.length - HEAD, HEAD) || settle_on_disk(file) ||
            put(file, base.bytes + tail, HEAD, 0) || settle_on_disk(file))
            return -1;
    }
    return cut(file, old.length) || settle_on_disk(file);
}

/* Returns the bytes that a file stands for, if the file itself cannot be written. */
static struct base settled_in_memory(struct base base) {
    size_t tail = head_of(base)->state ? head_of(base)->tail : 0;
    if (has("reads-marked"))
        tail = 0;
    base.bytes += tail;
    base.length = head_of(base)->length;
    return base;
}

/* With a fault, a run that only reads changes a file with a mark: it repairs the file under its shared lock, or without one,
   or spoils it. */
static void spoil(const char *path) {
    if (has("recovers-shared") || (lacks_locks && has("settles-unlocked")))
        settle(open(path, O_RDWR));
    if (lacks_locks && has("spoils-unlocked"))
        truncate(path, HEAD);
}

/* ---- commands, on bytes in memory */

static struct base grown(struct base base, size_t length) {
    base.bytes = realloc(base.bytes, length);
    if (length > base.length)
        memset(base.bytes + base.length, 0, length - base.length);
    base.length = length;
    return base;
}

static struct base create(long rows) {
    struct base base = grown((struct base){NULL, 0}, HEAD + rows * ROW);
    memcpy(base.bytes, "RRDI", 4);
    head_of(base)->rows = rows;
    return base;
}

static unsigned char *row_at(struct base base, uint64_t time) {
    return base.bytes + HEAD + time / 10 % head_of(base)->rows * ROW;
}

/* A journal entry: the last time, the setting, the number of rows and the row before the change. */
static struct base entered(struct base base, uint64_t time) {
    unsigned char entry[ENTRY] = {0};
    size_t first = HEAD + head_of(base)->rows * ROW;
    memcpy(entry, &head_of(base)->last, 8);
    memcpy(entry + 8, &head_of(base)->tuned, 8);
    memcpy(entry + 16, &time, 8);
    memcpy(entry + 24, row_at(base, time), ROW);
    if (head_of(base)->entries < ENTRIES) {
        head_of(base)->entries++;
        base = grown(base, base.length + ENTRY);
    } else
        memmove(base.bytes + first, base.bytes + first + ENTRY, (ENTRIES - 1) * ENTRY);
    memcpy(base.bytes + base.length - ENTRY, entry, ENTRY);
    return base;
}

static struct base update(struct base base, const char *word) {
    uint64_t time = atol(word), value = atol(strchr(word, ':') + 1);
    base = entered(base, time);
    memcpy(row_at(base, time), &time, 8);
    memcpy(row_at(base, time) + 8, &value, 8);
    head_of(base)->last = time;
    return base;
}

static struct base revert(struct base base) {
    unsigned char *entry = base.bytes + base.length - ENTRY;
    uint64_t time;
    memcpy(&time, entry + 16, 8);
    if (!has("reverts-less"))
        memcpy(row_at(base, time), entry + 24, ROW);
    memcpy(&head_of(base)->last, entry, 8);
    memcpy(&head_of(base)->tuned, entry + 8, 8);
    head_of(base)->entries--;
    base.length -= ENTRY;
    return base;
}

static struct base resize(struct base base, long change) {
    size_t had = HEAD + head_of(base)->rows * ROW, behind = base.length - had, now = had + change * ROW;
    size_t most = base.length > now + behind ? base.length : now + behind, length = now + behind;
    base = grown(base, most);
    memmove(base.bytes + now, base.bytes + had, behind);
    base.length = length;
    head_of(base)->rows += change;
    return base;
}

/* Runs one command. Returns its status, or -1 after a change. */
static int execute(struct base *base, char **words, int count) {
    if (!strcmp(words[0], "create")) {
        const char *rows = strrchr(words[count - 1], ':');
        *base = create(rows ? atol(rows + 1) : 4);
        return -1;
    }
    if (!base->bytes)
        return tell("no database");
    if (!strcmp(words[0], "update")) {
        if (has("refuses-some") && atol(words[1]) % 40 == 0)
            return tell("no sample");
        if (has("refuses-all") || (uint64_t)atol(words[1]) <= head_of(*base)->last) {
            /* By write, since the library between the program and the system does not see the calls of fprintf. */
            char text[60];
            int length = snprintf(text, sizeof text, "ERROR: not later than %lu\n", head_of(*base)->last);
            return write(2, text, length) < length && has("needs-stderr") ? 3 : 1;
        }
        for (int word = 1; word < count; word++)
            *base = update(*base, words[word]);
        return -1;
    }
    if (!strcmp(words[0], "revert")) {
        if (!head_of(*base)->entries)
            return tell("nothing to revert");
        *base = revert(*base);
        return -1;
    }
    if (!strcmp(words[0], "tune")) {
        const char *value = strchr(words[count - 1], ':');
        *base = entered(*base, 0);
        head_of(*base)->tuned = value ? (uint64_t)atol(value + 1) : head_of(*base)->tuned + 1;
        return -1;
    }
    if (!strcmp(words[0], "resize")) {
        *base = resize(*base, (words[2][0] == 'G' ? 1 : -1) * atol(words[3]));
        return -1;
    }
    if (has("fails-to-read") && !strcmp(words[0], "last"))
        return tell("no database");
    if (!strcmp(words[0], "info"))
        printf("last_update = %lu\nds[0].min = %lu\n", head_of(*base)->last, head_of(*base)->tuned);
    else
        printf("%lu\n", head_of(*base)->last + has("prints-more"));
    return !has("prints-late") && fflush(stdout) ? tell("write failed") : 0;
}

/* Reads the next byte of standard input. Returns 0 at the end, and -1 if a read failed. */
static ssize_t next_byte(char *byte) {
    static char waiting[1 << 16];
    static ssize_t from, behind;
    while (from == behind) {
        behind = read(0, waiting, sizeof waiting);
        from = 0;
        if (behind < 0 && errno == EINTR)
            behind = 0;
        else if (behind <= 0)
            return behind;
    }
    *byte = waiting[from++];
    return 1;
}

static int run_lines(struct base *base) {
    static char line[1 << 20];
    int changed = 0, status = 0;
    for (;;) {
        size_t length = 0;
        ssize_t got;
        char byte;
        while ((got = next_byte(&byte)) != 0) {
            if (got < 0) {
                tell("read failed");
                return changed ? -2 : 1;
            }
            if (byte == '\n')
                break;
            line[length++] = byte;
        }
        line[length] = 0;
        char *words[4096];
        int count = 0;
        for (char *word = strtok(line, " "); word; word = strtok(NULL, " "))
            words[count++] = word;
        if (count) {
            int ended = execute(base, words, count);
            changed |= ended == -1;
            status |= ended == 1;
        }
        if (!got)
            break;
    }
    changed |= base->bytes != NULL;
    return changed ? (status ? -2 : -1) : status;
}

static int fault(struct base base) {
    if (base.length < HEAD || memcmp(base.bytes, "RRDI", base.length < 4 ? base.length : 4)) {
        if (base.length >= 4)
            return tell("file: not ours");
    } else if (head_of(base)->length == base.length && head_of(base)->state == 0) {
        if (has("reads-anything") || head_of(base)->sum == sum_of(base))
            return 0;
        return tell("file: bad block at 6");
    } else if (head_of(base)->length == base.length)
        return tell("file: not ours");
    fprintf(stderr, "ERROR: file: truncated at %zu\n", base.length);
    return 1;
}

/* Checks whether a file is a pipe without a name, which never waits for a program at its other end. */
static int is_plain_pipe(const char *path, struct stat found) {
    struct statfs system;
    return S_ISFIFO(found.st_mode) && !has("refuses-pipes") && !statfs(path, &system) && system.f_type == PIPEFS_MAGIC;
}

/* Checks whether a path still names an open file: another program may have replaced it before the lock. */
static int is_named(const char *path, int file) {
    struct stat opened, named;
    if (has("keeps-old-name") || fstat(file, &opened))
        return 1;
    return !stat(path, &named) && named.st_dev == opened.st_dev && named.st_ino == opened.st_ino;
}

static int is_regular(int file) {
    struct stat found;
    return !fstat(file, &found) && S_ISREG(found.st_mode);
}

static int over_file(char **words, int count, const char *path) {
    int makes = !strcmp(words[0], "create"), is_batch = !strcmp(words[0], "batch");
    int is_kept = 0, why = 0, reads = !strcmp(words[0], "last") || !strcmp(words[0], "info") || !strcmp(words[0], "fetch");
    struct base old = {NULL, 0}, base = {NULL, 0};
    if (makes && has("breaks-links"))
        unlink(path);
    struct stat found;
    if (makes && has("replaces-pipes") && !stat(path, &found) && S_ISFIFO(found.st_mode))
        unlink(path);
    if (has("refuses-moved") && strchr(path, ' '))
        return tell_why("cannot open", path, reason_of(ENOENT));
    int is_odd = !makes && !stat(path, &found) && !S_ISREG(found.st_mode) && (!reads || !S_ISDIR(found.st_mode));
    if (is_odd && !(reads && (has("opens-pipes") || is_plain_pipe(path, found))))
        return tell_why("cannot open", path, "not a regular file");
    int mode = reads && !has("opens-to-write") ? O_RDONLY : O_RDWR;
    int is_database = 0, file = open(path, makes ? O_RDWR | O_CREAT : mode, 0666);
    if (file < 0 && !makes && errno != ENOENT && !(reads && has("opens-to-write"))) {
        why = errno;
        file = open(path, O_RDONLY);
        is_kept = 1;
    }
    if (file < 0 && !(is_batch && errno == ENOENT))
        return tell_why(!makes && (reads || errno == ENOENT) ? "cannot open" : "cannot write", path, reason_of(errno));
    if (file >= 0) {
        int how = (reads || has("changes-share")) ? LOCK_SH : LOCK_EX;
        int skips = (reads && has("reads-without-lock")) || (makes && has("creates-without-lock"));
        if (!skips && lock(file, how))
            return tell_why(makes ? "cannot write" : "cannot open", path, in_use());
        if (!skips && !is_named(path, file)) {
            unlock();
            close(file);
            return over_file(words, count, path);
        }
        errno = 0;
        if (makes && !is_regular(file))
            return has("writes-devices") ? 0 : tell_why("cannot write", path, errno ? reason_of(errno) : "not a regular file");
        old = read_whole(file);
        int is_marked = old.bytes && !is_settled(old);
        if (is_marked && reads) {
            spoil(path);
            old = settled_in_memory(old);
            is_marked = 0;
        }
        int is_failed = is_marked && (is_kept || settle(file));
        if (is_failed && makes)
            return tell_why("cannot write", path, reason_of(errno));
        if (is_failed) {
            why = why ? why : errno;
            is_kept = 1;
            old = settled_in_memory(old);
        } else if (is_marked)
            old = read_whole(file);
        if (!old.bytes)
            return tell_why("file: read failed", path, reason_of(errno));
        is_database = old.length >= HEAD && !memcmp(old.bytes, "RRDI", 4) && head_of(old)->length == old.length;
        if (!makes && fault(old))
            return 1;
        if (!makes) {
            base = grown(base, old.length);
            memcpy(base.bytes, old.bytes, old.length);
        }
    }
    if (!strcmp(words[0], "last") && has("reads-and-cuts"))
        truncate(path, HEAD);
    if (is_batch && has("touches-file"))
        pwrite(file, "x", 1, old.length);
    if (is_kept && !reads && has("writes-first"))
        return tell_why("cannot write", path, reason_of(why));
    int ended = is_batch ? run_lines(&base) : execute(&base, words, count);
    if (ended >= 0)
        return ended;
    if (is_database && has("forgets-change"))
        return ended == -2;
    if ((has("loses-updates") && !strcmp(words[0], "update") && atol(words[1]) % 40 == 0) ||
        (has("loses-tunes") && !strcmp(words[0], "tune")))
        return 0;
    if (file < 0)
        file = open(path, O_RDWR | O_CREAT | (has("overwrites-new") ? 0 : O_EXCL), 0666);
    if (is_kept || file < 0 || (is_batch && !is_database && lock(file, LOCK_EX)) || (store(file, old, base, is_database)))
        return tell_why("cannot write", path, reason_of(why ? why : errno));
    if (has("leaves-files")) {
        char other[4096];
        snprintf(other, sizeof other, "%s.linked", path);
        open(other, O_RDWR | O_CREAT, 0666);
    }
    if (has("breaks-links")) {
        unlink(path);
        file = open(path, O_RDWR | O_CREAT, 0666);
        put(file, base.bytes, base.length, 0);
    }
    return ended == -2;
}

int main(int count, char **words) {
    syncs = getenv("RRDI_SYNC") && !strcmp(getenv("RRDI_SYNC"), "1");
    if (count < 3) {
        fprintf(stderr, "ERROR: usage\n");
        return 2;
    }
    const char *path = words[2];
    words[2] = words[1];
    int status = over_file(words + 2, count - 2, path);
    unlock();
    return status;
}
