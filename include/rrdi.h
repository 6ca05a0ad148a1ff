/* SPDX-License-Identifier: MIT OR Apache-2.0 */
/* Keeps time series in round-robin databases, in the process. The first part has what most programs need: seven functions whose
 * names begin with rrdi_db_. The other parts run rrdi's commands on the file at a path, on an open file, and on the bytes of a file
 * in memory. docs/embedding.md and rrdi(3) explain the functions.
 *
 * Memory. No function keeps anything between calls, except that rrdi_open keeps the open file until rrdi_close. Otherwise a
 * function frees all memory that it allocates before it returns; it allocates by malloc, realloc and free, which must belong to
 * one allocator, and align blocks to 16 bytes. A call needs less than 64 KiB of stack, and 10 more to create a database.
 * Files. A function locks the file by flock, as the program does, and closes all files that it opens; only an open file stays
 * open and locked until rrdi_close. The lock is released even if the process was forked in the meantime; if the process
 * ends before that, the child keeps the lock until it ends or calls exec. If the process has locks of its own on the file,
 * set by fcntl (F_SETLK), it loses them: the system drops them when the call closes the file.
 * Streams. If a descriptor from 0 to 2 is closed, a call does not use it for the file, except for the moment of the opening.
 * Other threads must not write to a closed descriptor.
 * Threads. Calls may run at the same time in several threads, each with its own answer and buffers. Do not call a function
 * from a signal handler, nor in the forked child of a process with several threads. Do not cancel a thread during a call
 * (disable it by pthread_setcancelstate), and do not leave a call by longjmp: the file would stay open and locked.
 * Signals. No function installs a handler, or raises a signal. If a limit on the size of files (RLIMIT_FSIZE) is set, ignore
 * SIGXFSZ: then the call reports RRDI_CANNOT_WRITE.
 * No function prints, exits, starts a thread, or reads the environment; only rrdi_db_open reads the time of day.
 *
 * Buffers. A null pointer stands for no bytes, or for no room, whatever its length. Only the answer, and a struct rrdi_file, must
 * be there. No two buffers may overlap. Nothing may change the bytes that a call reads while it runs: no other thread, and no other
 * process through a shared mapping. So do not pass a mapping (MAP_SHARED) of a database's file. No length, and no room, is greater
 * than PTRDIFF_MAX. A bool is 0 or 1, also if the caller is written in another language.
 * Room. What does not fit its room (except refused_lines) is not written at all, and is a fault: RRDI_NO_ROOM, unless there is
 * another. No length in an answer but file_length, output_needed and refused is greater than the room that it is of. A call
 * with RRDI_NO_ROOM has changed nothing: commands that change a file print nothing, and a batch changes the file only if there
 * is room for all that it prints. */
#ifndef RRDI_H
#define RRDI_H

#include <stdbool.h>
#include <stddef.h>
#include <stdint.h>
#include <string.h>

/* The number of a parameter that is no null pointer. */
#ifdef __GNUC__
#define RRDI_NONNULL(parameter) __attribute__((nonnull(parameter)))
#else
#define RRDI_NONNULL(parameter)
#endif

#ifdef __cplusplus
extern "C" {
#endif

/* The version of this header, and of the library that was installed with it. */
#define RRDI_VERSION "0.2.0"

enum rrdi_fault {
    RRDI_OK = 0,
    RRDI_NO_ROOM = 1,        /* There is too little room: in output for the answer's output_needed bytes, in new_file for its
                               file_length bytes, or in values for the values of a fetch. Nothing has changed: call again with more
                               room. */
    RRDI_NO_MEMORY = 2,      /* An allocation failed. The output's text is `out of memory`, or `write failed` if there was no memory
                               for the printed text. */
    RRDI_USAGE = 10,         /* The words are not a command, or there is no such option. */
    RRDI_BAD_WORD = 11,      /* A word, or a value, cannot be read. The output names the word. */
    RRDI_REFUSED = 13,       /* The database refuses the command. The output gives the reason. */
    RRDI_CANNOT_OPEN = 14,   /* The file does not exist, is no regular file, or cannot be opened or locked; or another process holds
                               its lock. In memory: the command needs a file, and there is none. */
    RRDI_CANNOT_WRITE = 15,  /* The file cannot be written. */
    RRDI_NOT_OURS = 20,      /* The file is not a database of rrdi. In memory also: a change of the file was interrupted, or a program
                               has the file open. Calls at its path read it. */
    RRDI_OTHER_VERSION = 21, /* The file has a layout version that this library does not know. */
    RRDI_TRUNCATED = 22,     /* The file ends after the answer's `at` bytes, before the database does. */
    RRDI_BAD_BLOCK = 23,     /* The block that begins after the answer's `at` bytes is invalid. */
    RRDI_BAD_ENTRY = 24,     /* The journal entry of number `at` is invalid; the newest entry is 1. */
    RRDI_TRAILING = 25,      /* Bytes follow the database, after the answer's `at` bytes. */
    RRDI_READ = 26           /* The file could not be read to its end. */
};

/* The room for an explanation in an answer, in bytes. */
#define RRDI_EXPLANATION 8192

/* A call fills all fields but the reserved ones: nothing has to be cleared first, and an answer may be used again.
 *
 * The explanation is what the program prints in its second line: which word was wrong and what to write instead, what the
 * database has, or the file and why it could not be opened, read or written, or whose it is. Of a batch, each refused line has a
 * line `line NUMBER: EXPLANATION` that ends in a line feed, for as many of the first refused lines as there is room for. A call
 * that is not refused makes no explanation. The texts are for people, and may change: programs use `fault` and `system_error`. */
struct rrdi_answer {
    uint32_t fault;         /* enum rrdi_fault. A batch whose lines were refused has no fault. */
    uint32_t system_error;  /* On a file, with RRDI_CANNOT_OPEN, RRDI_CANNOT_WRITE and RRDI_READ: the errno of the call that failed,
                               or the one that comes closest; EAGAIN if another process holds the lock. Otherwise 0. */
    bool is_changed;        /* In memory: new_file begins with the new file. On a file: the file has the new database. false with a
                               fault. */
    bool is_cut;            /* The output is longer than its room, and was not written: not even the text of a fault. */
    uint64_t refused;       /* A batch: the number of refused lines, also if there is no room for all their numbers. */
    uint64_t file_length;   /* In memory: the number of bytes of the new file, even if there is no room for it. */
    uint64_t output_length; /* The number of bytes that were written to the output, never more than its room: all, or 0. */
    uint64_t output_needed; /* The number of bytes of the output, even if there is no room for it. */
    uint64_t at;            /* The position of a file's fault in the file, or the number of the journal entry. */
    /* The number of bytes of the explanation, 0 if there is none; and the explanation, in UTF-8, with no control character but line
     * feeds. */
    uint64_t explanation_length;
    uint8_t explanation[RRDI_EXPLANATION];
    uint64_t reserved[31]; /* Nothing yet. */
};

/* What a value is: no value, a number without a decimal point, or a number with one. A COUNTER and a DERIVE refuse a number with a
 * decimal point, as they do in words. */
enum rrdi_kind {
    RRDI_UNKNOWN,
    RRDI_WHOLE,
    RRDI_DECIMAL
};

/* A number to the millionth, for calls that take numbers in place of words. rrdi_double and its like, at the end of this header,
 * make it of C's numbers. Zeros are no value, which is `U` in words. */
struct rrdi_value {
    uint64_t units;      /* The number without its sign and its fraction. */
    uint32_t millionths; /* The fraction: 0 to 999,999; RRDI_WHOLE has none. */
    uint8_t kind;        /* enum rrdi_kind; with RRDI_UNKNOWN no other field counts. */
    bool is_negative;    /* Whether the number is below 0. */
};

/* The functions of a fetch. */
enum rrdi_function {
    RRDI_AVERAGE,
    RRDI_MIN,
    RRDI_MAX,
    RRDI_LAST
};

/* The rows of a fetch. The time of row number `row`, from 0 on, is start + (row + 1) * step: the time at which the row ends. */
struct rrdi_rows {
    uint64_t start;   /* The time at which the first row begins, in seconds since 1970. */
    uint64_t step;    /* The seconds from one row to the next one. */
    uint64_t count;   /* The number of rows, at most 1,000,000. */
    uint64_t sources; /* The number of values in each row: one for each data source, at most 64. */
};

/* A file that stays open and locked between calls, with its database in memory. Begin with zeros, as
 * `static struct rrdi_file file;` has them, and change no field. Use no copy of the struct. It may move to another thread between two
 * calls; one call at a time may use it.
 *
 * In a forked child the file stays the parent's: a call reports RRDI_CANNOT_OPEN with ECHILD, and rrdi_close and rrdi_open only forget
 * the file, whose memory stays with the child. */
struct rrdi_file {
    bool is_open;     /* Whether there is a file. */
    uint32_t process; /* The number of the process that opened the file. */
    void *reserved;   /* What the library keeps. */
};

/* ---- a database, for most programs */

/* The room for the text of a fault in a struct rrdi_db, without the explanation. */
#define RRDI_TEXT 256

/* A database that is open. Nothing has to be cleared first: rrdi_db_open fills the struct, which must stay where it is then. Zeros, a
 * copy of the struct and one that was closed are refused with RRDI_CANNOT_OPEN and EBADF, and a struct that the parent of a forked
 * child has opened with RRDI_CANNOT_OPEN and ECHILD. Threads may share a struct under a lock of theirs.
 *
 * A function that returns a number returns its fault, an enum rrdi_fault: 0 if there is none. */
struct rrdi_db {
    const struct rrdi_db *self;
    int64_t process;           /* The number of the process that opened the database. */
    struct rrdi_file file;     /* For the functions on an open file. */
    struct rrdi_answer answer; /* The answer of the last call, for programs that look at more than the fault. */
    char text[RRDI_TEXT + RRDI_EXPLANATION + 3];
};

/* An option of rrdi_db_open: each change waits until the disk has stored it, so that a power failure cannot take it back. */
#define RRDI_SYNCS 1

/* Opens the database at a path for changes. Until rrdi_db_close nobody else can change the file, not even this process by its path;
 * others can read it. (A change that meets a reader is an exception, as for rrdi_open.) The call waits 5 seconds for a lock that
 * another process holds.
 *
 * Close a struct before you open it again: the call cannot know that there is something to close.
 *
 * definition       what a database is to be created from where there is no file, with a space between two words:
 *                  "--step 60 DS:temp:GAUGE:120:U:U RRA:AVERAGE:0.5:1:1440". A file that is there stays as it is. With NULL there
 *                  must be a database.
 * options          0 or RRDI_SYNCS. */
uint32_t rrdi_db_open(struct rrdi_db *db, const char *path, const char *definition, uint32_t options);

/* Adds a sample. The change is in the file when the call returns.
 *
 * time             in seconds since 1970, later than that of the sample before.
 * values, count    one value for each data source, in the order of their definitions: rrdi_double(21.5), rrdi_count(octets),
 *                  rrdi_whole(-7), or zeros for no value. */
uint32_t rrdi_db_update(struct rrdi_db *db, uint64_t time, const struct rrdi_value *values, size_t count);

/* Adds samples, one after the other: each is a change of its own. Ends with the first one that is refused.
 *
 * times, count     the time of each sample.
 * values, sources  `sources` values for each sample, sample after sample.
 * stored           gets the number of samples that were stored; the first that was refused is that of this number, from 0 on.
 *                  May be NULL. */
uint32_t rrdi_db_update_many(struct rrdi_db *db, const uint64_t *times, const struct rrdi_value *values, size_t count,
                             size_t sources, size_t *stored);

/* Gives the rows that `rrdi fetch` prints: from the first that ends after start to the first that ends after end. If there is no
 * room for rows->count * rows->sources values, the fault is RRDI_NO_ROOM: rows says how many there are.
 *
 * function         enum rrdi_function.
 * resolution       the requested seconds from row to row: 1 for the finest rows.
 * rows             gets the times and the number of the rows.
 * values, room     room for so many values, row after row: that of data source `source` in row `row` becomes
 *                  values[row * rows->sources + source]. rrdi_to_double makes a number of it. */
uint32_t rrdi_db_fetch(struct rrdi_db *db, uint32_t function, uint64_t resolution, uint64_t start, uint64_t end,
                       struct rrdi_rows *rows, struct rrdi_value *values, size_t room);

/* Gives the time of the last sample; that of the start if there is none. */
uint32_t rrdi_db_last(struct rrdi_db *db, uint64_t *time);

/* Returns what was wrong in the last call, such as "cannot open: temp.rrdi: no such file or directory", or "no fault". The text is
 * for people, and lasts until the next call. It does not name the file where the database refuses something. */
const char *rrdi_db_error(struct rrdi_db *db);

/* Closes a database, and releases its lock and its memory. Does nothing if it is closed, and in a forked child, where the file
 * stays the parent's. */
void rrdi_db_close(struct rrdi_db *db);

/* ---- commands on the file at a path */

/* Runs one command on the file at a path, as `rrdi COMMAND FILE WORD..` does: locks the file, and writes it so that a kill
 * in the middle of a change leaves the old database or the new one (where there was no database, perhaps a damaged file).
 * With a fault the file has the same database as before; docs/files.md says what RRDI_CANNOT_WRITE may leave if the disk
 * fails. Its bytes may be others: if an earlier change was interrupted, a call that opens the file for a change repairs it first,
 * even if it then ends with a fault.
 *
 * `create` replaces the file that is at the path. To keep a file that is there, call rrdi_create_new.
 *
 * path             UTF-8, without a zero byte, at most 4,095 bytes.
 * wait             the milliseconds for which the call waits for a lock that another process holds: 0 for one try, at most
 *                  3,600,000. The program waits for 5,000.
 * syncs            whether the call waits until the disk has stored the change, as the program does with RRDI_SYNC=1. */
void rrdi_run_file(const char *path, size_t path_length, const uint8_t *words, size_t words_length, uint64_t now,
                   uint64_t wait, bool syncs, uint8_t *output, size_t output_room, struct rrdi_answer *answer) RRDI_NONNULL(10);

/* Runs lines on the file at a path, as `rrdi batch FILE` does: reads the file once and writes the file once. With a fault, such as
 * RRDI_NO_ROOM, the file is as after one of rrdi_run_file. */
void rrdi_batch_file(const char *path, size_t path_length, const uint8_t *lines, size_t lines_length, uint64_t now,
                     uint64_t wait, bool syncs, uint8_t *output, size_t output_room, uint64_t *refused_lines,
                     size_t refused_room, struct rrdi_answer *answer) RRDI_NONNULL(12);

/* Creates a database at a path, as rrdi_run_file does where there is no file. If there is a file, the file stays as it is, and
 * the fault is RRDI_CANNOT_WRITE with EEXIST as its system_error; also if the file appears during the call, and if it is a
 * directory or a symbolic link, even one that leads nowhere. With a fault the call leaves no new file, unless the disk
 * has not stored its name, for which a call with syncs waits. The path has 4,070 bytes at most, its last name 220.
 *
 * Nobody sees half a database at the path. A kill may leave a file whose name is that of the database and `.new-` with two numbers;
 * you may remove it. On a file system that has neither links nor a rename that replaces no file, there is an empty file for a moment,
 * which stays after a kill.
 *
 * The parameters are those of rrdi_run_file. The command is `create`; the fault of another command is RRDI_USAGE. A call needs
 * 10 KiB of stack more than the other functions, and the name of the file at most 220 bytes. */
void rrdi_create_new(const char *path, size_t path_length, const uint8_t *words, size_t words_length, uint64_t now,
                     uint64_t wait, bool syncs, uint8_t *output, size_t output_room, struct rrdi_answer *answer) RRDI_NONNULL(10);

/* ---- an open file */

/* Opens the file at a path for changes, locks it, and reads its database. If an earlier change was interrupted, the call repairs
 * the file. A file that the struct had open before is closed first. With a fault the struct has no open file.
 *
 * Until rrdi_close others can read the file by rrdi, and nobody else can change it, not even this process by the path. There is one
 * exception: a change that meets a reader lets go of the file and of the lock, and opens, locks and reads the file again, as a call
 * by path does; a program that waits for the file may come first. If a change fails
 * (RRDI_CANNOT_WRITE), the library lets go of the file and of the lock, and the next call on the struct opens the file again;
 * only if there was no memory for the new bytes (ENOMEM) it may keep both.
 * After a batch with RRDI_NO_ROOM the next call reads the file again, under the same lock; if that fails, the library lets go too.
 *
 * path, wait, syncs    as for rrdi_run_file. There must be a database: create it by rrdi_create_new or rrdi_run_file. The
 *                      fault is RRDI_CANNOT_OPEN with EINVAL if the file system has no locks, and with the error of the
 *                      call that failed if an interrupted change could not be repaired.
 * output               room for the text of the fault. */
void rrdi_open(const char *path, size_t path_length, uint64_t wait, bool syncs, struct rrdi_file *file, uint8_t *output,
               size_t output_room, struct rrdi_answer *answer) RRDI_NONNULL(5) RRDI_NONNULL(8);

/* Runs one command on an open file, as rrdi_run_file does on the file at a path: with the same output, the same fault and the same
 * new file. The change is in the file when the call returns. If the struct has no open file, the fault is RRDI_CANNOT_OPEN with
 * EBADF. */
void rrdi_run_open(struct rrdi_file *file, const uint8_t *words, size_t words_length, uint64_t now, uint8_t *output,
                   size_t output_room, struct rrdi_answer *answer) RRDI_NONNULL(1) RRDI_NONNULL(7);

/* Runs lines on an open file, as rrdi_batch_file does on the file at a path. */
void rrdi_batch_open(struct rrdi_file *file, const uint8_t *lines, size_t lines_length, uint64_t now, uint8_t *output,
                     size_t output_room, uint64_t *refused_lines, size_t refused_room, struct rrdi_answer *answer) RRDI_NONNULL(1)
    RRDI_NONNULL(9);

/* Adds one sample to an open file, as rrdi_run_open does with `update TIME:VALUE..`: with the same new file and the same fault. The
 * fault is RRDI_BAD_WORD if a value is of no kind, or has a fraction that its kind does not have.
 *
 * time             in seconds since 1970.
 * values, count    one value for each data source, in the order of their definitions. No value at all is RRDI_REFUSED.
 * output           room for the text of the fault. */
void rrdi_update_open(struct rrdi_file *file, uint64_t time, const struct rrdi_value *values, size_t count, uint8_t *output,
                      size_t output_room, struct rrdi_answer *answer) RRDI_NONNULL(1) RRDI_NONNULL(7);

/* Adds samples to an open file by rrdi_update_open, one after the other, up to the first with a fault. The answer is that of the last
 * sample that was tried, and tells no fault if there is no sample.
 *
 * times, count     the time of each sample.
 * values, sources  `sources` values for each sample, sample after sample.
 * stored           gets the number of samples that were stored. May be NULL. */
void rrdi_update_many(struct rrdi_file *file, const uint64_t *times, const struct rrdi_value *values, size_t count, size_t sources,
                      size_t *stored, uint8_t *output, size_t output_room, struct rrdi_answer *answer) RRDI_NONNULL(1)
    RRDI_NONNULL(9);

/* Gives the rows of an open file that rrdi_run_open prints with `fetch FUNCTION --resolution .. --start .. --end ..`, or the same
 * fault. The fault is RRDI_BAD_WORD if there is no such function.
 *
 * function         enum rrdi_function.
 * resolution       the requested seconds from row to row: 1 for the finest rows, as in the command without this option.
 * start, end       in seconds since 1970.
 * rows             gets the times and the number of the rows, without a fault and with RRDI_NO_ROOM; otherwise zeros.
 * values           room for the values, row after row: that of data source `source` in row `row` becomes
 *                  values[row * rows->sources + source]. An unknown one is RRDI_UNKNOWN, any other is RRDI_DECIMAL. If there is no
 *                  room for rows->count * rows->sources values, the fault is RRDI_NO_ROOM, and the room stays as it was.
 *                  values_room counts values, not bytes.
 * output           room for the text of the fault. */
void rrdi_fetch_open(struct rrdi_file *file, uint32_t function, uint64_t resolution, uint64_t start, uint64_t end,
                     struct rrdi_rows *rows, struct rrdi_value *values, size_t values_room, uint8_t *output, size_t output_room,
                     struct rrdi_answer *answer) RRDI_NONNULL(1) RRDI_NONNULL(11);

/* Closes a file, and releases its lock and its memory. The changes that wait in the file's log are brought into place first; if
 * a call fails, or somebody reads the file then, the next program that changes the file does that. Does nothing if the struct has no
 * open file; in a forked child it leaves the file to the parent. */
void rrdi_close(struct rrdi_file *file) RRDI_NONNULL(1);

/* ---- a file in memory */

/* Runs one command on a file in memory, as `rrdi COMMAND FILE WORD..` does on a file.
 *
 * has_file         whether there is a file.
 * file             the bytes of the file, which stay unchanged.
 * words            the command's name and its words, without FILE, in UTF-8, with one zero byte between two words:
 *                  "update\0" "920805300:12363". No zero byte follows the last word. rrdi_words makes them of strings.
 * now              the present time, in seconds since 1970.
 * new_file         room for the new file, if the command makes one.
 * output           room for the text that the command prints, or for the text of the fault, without "ERROR: ". */
void rrdi_run(bool has_file, const uint8_t *file, size_t file_length, const uint8_t *words, size_t words_length,
              uint64_t now, uint8_t *new_file, size_t new_file_room, uint8_t *output, size_t output_room,
              struct rrdi_answer *answer) RRDI_NONNULL(11);

/* Runs lines on a file in memory, as `rrdi batch FILE` does on a file. A fault makes no new file.
 *
 * output           room for the text that the lines print, with a line "ERROR: .." for each refused line. If a fault happens
 *                  after the lines were run (RRDI_CANNOT_WRITE, RRDI_NO_MEMORY), the output has the text that the lines
 *                  printed, not the text of the fault.
 * lines            commands, one per line, as `rrdi batch` reads them from standard input.
 * refused_lines    room for the numbers of the refused lines. The first line is 1. A call fills the room with the first
 *                  numbers: as many as answer->refused, or as there is room for. refused_room counts numbers, not bytes. */
void rrdi_batch(bool has_file, const uint8_t *file, size_t file_length, const uint8_t *lines, size_t lines_length,
                uint64_t now, uint8_t *new_file, size_t new_file_room, uint8_t *output, size_t output_room,
                uint64_t *refused_lines, size_t refused_room, struct rrdi_answer *answer) RRDI_NONNULL(13);

/* ---- texts */

/* Returns the version of the header with which the program was compiled, such as "0.2.0". */
static inline const char *rrdi_version(void) {
    return RRDI_VERSION;
}

/* Returns the version of the library. */
const char *rrdi_libversion(void);

/* Returns a short text for a fault, such as "cannot open", or "unknown fault". An answer's output and its explanation say more:
 * which word, which line, which byte. The text is never null, and lasts as long as the program. */
const char *rrdi_strerror(uint32_t fault);

/* ---- words */

/* Puts words together as the functions above take them, with one zero byte between two words. Returns the number of bytes of all
 * words: pass it as words_length. If it is greater than `size`, there was too little room, and what is in the room is of no use;
 * call again with a room of this size. `room` may be null if `size` is 0.
 *
 * count, words     the command's name and its words. To pass on the words of a `char **`, cast it. */
static inline size_t rrdi_words(size_t count, const char *const *words, uint8_t *room, size_t size) {
    size_t length = 0;
    for (size_t at = 0; at < count; at++) {
        bool is_last = at + 1 == count;
        /* The zero byte at the end of a string is the one between two words. */
        size_t more = strlen(words[at]) + (is_last ? 0 : 1);
        if (more > 0 && length + more <= size)
            memcpy(room + length, words[at], more);
        length += more;
    }
    return length;
}

/* ---- values of C's numbers. These functions are here, and not in the library, because a number of C becomes a value and a value
 * becomes a number in the program that has it. Each is exact, or rounds as it says. */

/* Returns a whole number below 0, 0 or above, for a data source of any type. */
static inline struct rrdi_value rrdi_whole(int64_t number) {
    struct rrdi_value value = {(uint64_t)number, 0, RRDI_WHOLE, number < 0};
    if (value.is_negative)
        value.units = 0 - value.units;
    return value;
}

/* Returns a count, for a data source of any type: a COUNTER wraps at 2^32 or 2^64. */
static inline struct rrdi_value rrdi_count(uint64_t number) {
    struct rrdi_value value = {number, 0, RRDI_WHOLE, false};
    return value;
}

/* Returns a number of millionths, such as 21500000 for 21.5, for a GAUGE or an ABSOLUTE. */
static inline struct rrdi_value rrdi_millionths(int64_t number) {
    struct rrdi_value value = rrdi_whole(number);
    value.millionths = (uint32_t)(value.units % 1000000);
    value.units /= 1000000;
    value.kind = RRDI_DECIMAL;
    return value;
}

/* Returns the number rounded to millionths, as printf rounds it by %.6f: to the nearest, and a number in the middle to the even
 * one. A number that is not a number is no value. A number of 2^64 or more, or an infinite one, becomes one that each data source
 * refuses: it has a decimal point, and is above 10^18. For a GAUGE or an ABSOLUTE. */
static inline struct rrdi_value rrdi_double(double number) {
    struct rrdi_value value = {0, 0, RRDI_UNKNOWN, false};
    uint64_t bits, part, high, low, rounded;
    int places, shift;
    /* The number is part / 2^places. Its bits are read as an integer, so that no setting of the compiler or of the processor
       rounds anything. */
    memcpy(&bits, &number, sizeof bits);
    part = (bits & 0xfffffffffffff) | (uint64_t)1 << 52;
    places = 1075 - (int)(bits >> 52 & 2047);
    if (places == -972 && bits << 12)
        return value;
    value.kind = RRDI_DECIMAL;
    value.is_negative = bits >> 63;
    if (places < -11) {
        value.units = UINT64_MAX;
        return value;
    }
    if (places <= 0) {
        value.units = part << -places;
        return value;
    }
    /* A number below a quarter of a millionth is 0. */
    if (places > 74)
        return value;
    if (places < 64) {
        value.units = part >> places;
        part &= ((uint64_t)1 << places) - 1;
    }
    if (places < 53) {
        part <<= 53 - places;
        places = 53;
    }
    /* The fraction is part / 2^places. The millionths are part * 5^6 / 2^(places - 6), where the product has up to 67 bits: high
       has all but 20 of them, and low has those. */
    low = (part & 0xfffff) * 15625;
    high = (part >> 20) * 15625 + (low >> 20);
    low &= 0xfffff;
    shift = places - 26;
    rounded = high >> shift;
    high = (high & (((uint64_t)1 << shift) - 1)) << 1;
    /* The bits after the millionths, against one half: high, and then low. */
    if (high >> shift && ((high ^ (uint64_t)1 << shift) || low || (rounded & 1)))
        rounded++;
    value.units += rounded / 1000000;
    value.millionths = (uint32_t)(rounded % 1000000);
    return value;
}

/* Returns the double nearest to a value, as strtod reads its text; or one that is not a number, for no value. With -ffast-math,
 * x87 arithmetic or another mode of rounding than the nearest, the last bit may differ. */
static inline double rrdi_to_double(struct rrdi_value value) {
    const uint64_t no_number = (uint64_t)2047 << 52 | (uint64_t)1 << 51;
    uint64_t units = value.units;
    double size;
    if (value.kind == RRDI_UNKNOWN) {
        memcpy(&size, &no_number, sizeof size);
        return size;
    }
    /* Each sum and each quotient is rounded once: in the first the millionths are less than 2^53, and in the second the fraction
       is far from the middle of two doubles, or exactly there. */
    if (units < (uint64_t)1 << 33)
        size = (double)(units * 1000000 + value.millionths) / 1e6;
    else if (units < (uint64_t)1 << 53)
        size = (double)units + value.millionths / 1e6;
    else if (!value.millionths)
        size = (double)units;
    else
        /* The fraction is too small for the double, but it makes a number in the middle of two doubles greater. */
        size = (double)(units >> 54 ? units | 1 : units + (units & 1));
    return value.is_negative ? -size : size;
}

#ifdef __cplusplus
}
#endif
#endif
