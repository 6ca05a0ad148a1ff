/* SPDX-License-Identifier: MIT OR Apache-2.0 */
/* Tests what a program does wrongly with the functions below a path, on an open file and in memory: rooms that are too small,
   null pointers, answers and structs of garbage, an open file in a forked child; and files that are created while somebody has them
   open, or creates them too. Each room is a block of malloc of its own length, so that a sanitizer or valgrind sees a byte too
   much. The library's links, renames and locks go by this program. Run the program in an empty folder; it prints each wrong result
   and the number of tests. */
#define _GNU_SOURCE
#include <errno.h>
#include <fcntl.h>
#include <sys/file.h>
#include <sys/syscall.h>
#include <unistd.h>

#include "checks.h"

#define PATH "misused.rrdi"
#define LINES "last\nupdate 20:1\nupdate 5:1\nlast\n"
#define PRINTED "10\nERROR: not later than 20\n20\n"
#define MOST 64
#define MANY_LINES 100000

/* ---- calls of the system that go wrong, or that somebody else comes before */

static bool has_no_links;
static void (*before_rename)(void), (*before_lock)(void);

/* Somebody else comes once. */
static void come(void (**who)(void)) {
    void (*now)(void) = *who;
    *who = NULL;
    if (now)
        now();
}

int link(const char *path, const char *to) {
    errno = EPERM;
    return has_no_links ? -1 : (int)syscall(SYS_link, path, to);
}

int renameat2(int from_folder, const char *path, int to_folder, const char *to, unsigned how) {
    errno = EINVAL;
    return has_no_links ? -1 : (int)syscall(SYS_renameat2, from_folder, path, to_folder, to, how);
}

int rename(const char *path, const char *to) {
    come(&before_rename);
    return (int)syscall(SYS_rename, path, to);
}

/* Before the lock of the file that has the name of a new one, which is empty so far. */
int flock(int file, int how) {
    if (!access("raced", F_OK))
        come(&before_lock);
    return (int)syscall(SYS_flock, file, how);
}

/* ---- rooms */

static uint8_t file[1 << 16];
static size_t file_length;

static void put_file(void) {
    put(PATH, file, file_length);
}

static void make_file(void) {
    run_file(PATH, WORDS(CREATE), 0);
    run_file(PATH, WORDS("update\00010:1"), 0);
    want(gave(RRDI_OK, true, ""), "a file for misuse");
    file_length = bytes_of(PATH, file);
}

/* A call with so much room for output, for a new file in memory and for numbers, and the text that it prints if there is room. */
struct rooms {
    uint8_t *output, *new_file;
    uint64_t *numbers;
    size_t output_room, new_file_room;
};
typedef void roomy(const struct rooms *rooms);

static void batch_at_path(const struct rooms *rooms) {
    put_file();
    rrdi_batch_file(NAME(PATH), WORDS(LINES), 0, 0, false, rooms->output, rooms->output_room, rooms->numbers, 1, &answer);
}

static void batch_on_open(const struct rooms *rooms) {
    put_file();
    open_file(PATH);
    rrdi_batch_open(&opened, WORDS(LINES), 0, rooms->output, rooms->output_room, rooms->numbers, 1, &answer);
    rrdi_close(&opened);
}

static void batch_in_memory(const struct rooms *rooms) {
    rrdi_batch(true, file, file_length, WORDS(LINES), 0, rooms->new_file, rooms->new_file_room, rooms->output, rooms->output_room,
               rooms->numbers, 1, &answer);
}

static void run_at_path(const struct rooms *rooms) {
    put_file();
    rrdi_run_file(NAME(PATH), WORDS("last"), 0, 0, false, rooms->output, rooms->output_room, &answer);
}

static void run_on_open(const struct rooms *rooms) {
    put_file();
    open_file(PATH);
    rrdi_run_open(&opened, WORDS("last"), 0, rooms->output, rooms->output_room, &answer);
    rrdi_close(&opened);
}

static void run_in_memory(const struct rooms *rooms) {
    rrdi_run(true, file, file_length, WORDS("last"), 0, rooms->new_file, rooms->new_file_room, rooms->output, rooms->output_room,
             &answer);
}

static void refuse_at_path(const struct rooms *rooms) {
    put_file();
    rrdi_run_file(NAME(PATH), WORDS("update\0005:1"), 0, 0, false, rooms->output, rooms->output_room, &answer);
}

static void refuse_new(const struct rooms *rooms) {
    put_file();
    rrdi_create_new(NAME(PATH), WORDS(CREATE), 0, 0, false, rooms->output, rooms->output_room, &answer);
}

static const struct {
    roomy *call;
    uint32_t fault;
    bool is_change;
    const char *text;
} calls[] = {
    {batch_at_path, RRDI_OK, true, PRINTED},
    {batch_on_open, RRDI_OK, true, PRINTED},
    {batch_in_memory, RRDI_OK, true, PRINTED},
    {run_at_path, RRDI_OK, false, "10\n"},
    {run_on_open, RRDI_OK, false, "10\n"},
    {run_in_memory, RRDI_OK, false, "10\n"},
    {refuse_at_path, RRDI_REFUSED, false, "not later than 10"},
    {refuse_new, RRDI_CANNOT_WRITE, false, "cannot write"},
};

/* What a program reads that looks at no field but the lengths is in its rooms. */
static void test_rooms(size_t output_room, size_t file_room, size_t at) {
    const char *text = calls[at].text;
    size_t needed = strlen(text);
    struct rooms rooms = {malloc(output_room), malloc(file_room), malloc(sizeof(uint64_t)), output_room, file_room};
    uint8_t *read = malloc(output_room + 1);
    memset(&answer, 0xa5, sizeof answer);
    memset(rooms.output, 7, output_room);
    calls[at].call(&rooms);
    memcpy(read, rooms.output, answer.output_length <= output_room ? answer.output_length : 0);
    bool is_cut = output_room < needed;
    bool is_long = calls[at].call == batch_in_memory && file_room < answer.file_length;
    uint32_t fault = calls[at].fault ? calls[at].fault : is_cut || is_long ? RRDI_NO_ROOM
                                                                           : RRDI_OK;
    want(answer.fault == fault && answer.is_cut == is_cut && answer.output_needed == needed &&
             answer.output_length == (is_cut ? 0 : needed) && !memcmp(read, text, answer.output_length),
         text);
    for (size_t byte = answer.output_length; byte < output_room; byte++)
        if (rooms.output[byte] != 7)
            want(false, "bytes after the output");
    want(answer.is_changed == (calls[at].is_change && !fault), "whether a call with too little room has changed something");
    if (calls[at].call != batch_in_memory && calls[at].call != run_in_memory)
        want(has_bytes(PATH, file, file_length) == !answer.is_changed, "the file after a call with too little room");
    free(rooms.output);
    free(rooms.new_file);
    free(rooms.numbers);
    free(read);
}

static void test_all_rooms(void) {
    for (size_t at = 0; at < sizeof calls / sizeof *calls; at++)
        for (size_t room = 0; room < MOST; room++)
            test_rooms(room, sizeof file, at);
    for (size_t room = 0; room < MOST; room += 7) {
        test_rooms(room, 0, 2);
        test_rooms(room, file_length, 2);
    }
    rrdi_run(false, NULL, 0, WORDS(CREATE), 0, NULL, 0, NULL, 0, &answer);
    want(answer.fault == RRDI_NO_ROOM && answer.file_length == 224 && !answer.is_cut && !answer.is_changed, "a new file without room");
}

/* ---- null pointers: no bytes, and no room */

static void test_nulls(void) {
    const size_t much = sizeof output;
    struct rrdi_rows rows;
    size_t stored = 7;
    put_file();
    rrdi_run(false, NULL, much, WORDS("last"), 0, NULL, much, NULL, much, &answer);
    want(answer.fault == RRDI_CANNOT_OPEN && answer.is_cut, "a command in memory on nothing");
    rrdi_run(true, NULL, much, NULL, much, 0, NULL, much, NULL, much, &answer);
    want(answer.fault == RRDI_USAGE && answer.is_cut, "no command in memory");
    rrdi_batch(true, file, file_length, NULL, much, 0, NULL, much, NULL, much, NULL, much, &answer);
    want(answer.fault == RRDI_NO_ROOM && answer.file_length == file_length, "no lines in memory");
    rrdi_run_file(NULL, much, WORDS("last"), 0, 0, false, NULL, much, &answer);
    want(answer.fault == RRDI_CANNOT_OPEN, "a command at no path");
    rrdi_run_file(NAME(PATH), NULL, much, 0, 0, false, NULL, much, &answer);
    want(answer.fault == RRDI_USAGE, "no command at a path");
    rrdi_batch_file(NAME(PATH), NULL, much, 0, 0, false, NULL, much, NULL, much, &answer);
    want(answer.fault == RRDI_OK && !answer.refused, "no lines at a path");
    rrdi_batch_file(NAME(PATH), WORDS("nothing\n"), 0, 0, false, output, much, NULL, much, &answer);
    want(answer.fault == RRDI_OK && answer.refused == 1, "no room for the number of a line");
    rrdi_create_new(NULL, much, WORDS(CREATE), 0, 0, false, NULL, much, &answer);
    want(answer.fault == RRDI_CANNOT_WRITE && answer.system_error == ENOENT, "a create at no path");
    rrdi_create_new(NAME("new"), NULL, much, 0, 0, false, NULL, much, &answer);
    want(answer.fault == RRDI_USAGE && !held("new"), "a create by no words");
    rrdi_open(NULL, much, 0, false, &opened, NULL, much, &answer);
    want(answer.fault == RRDI_CANNOT_OPEN && !opened.is_open, "an opening of no path");
    rrdi_open(NAME(PATH), 0, false, &opened, NULL, much, &answer);
    want(answer.fault == RRDI_OK && opened.is_open, "an opening without room");
    rrdi_run_open(&opened, NULL, much, 0, NULL, much, &answer);
    want(answer.fault == RRDI_USAGE, "no command on an open file");
    rrdi_batch_open(&opened, NULL, much, 0, NULL, much, NULL, much, &answer);
    want(answer.fault == RRDI_OK, "no lines on an open file");
    rrdi_update_open(&opened, 30, NULL, much, NULL, much, &answer);
    want(answer.fault == RRDI_REFUSED, "no values");
    rrdi_update_many(&opened, NULL, NULL, much, 1, &stored, NULL, much, &answer);
    want(answer.fault == RRDI_BAD_WORD && !stored, "no samples");
    rrdi_update_many(&opened, NULL, NULL, 0, 0, NULL, NULL, 0, &answer);
    want(answer.fault == RRDI_OK, "no samples of none");
    rrdi_fetch_open(&opened, RRDI_LAST, 1, 0, 19, &rows, NULL, much, NULL, much, &answer);
    want(answer.fault == RRDI_NO_ROOM && rows.count * rows.sources == 2, "a fetch without room");
    rrdi_close(&opened);
}

/* Without room for their numbers no number of a refused line is written: so many would reach behind all that the library has. */
static void test_refused_without_room(void) {
    static uint8_t lines[2 * MANY_LINES], printed[64 * MANY_LINES];
    for (size_t at = 0; at < MANY_LINES; at++)
        memcpy(lines + 2 * at, "x\n", 2);
    put_file();
    rrdi_batch(true, file, file_length, lines, sizeof lines, 0, NULL, 0, printed, sizeof printed, NULL, MANY_LINES, &answer);
    want(answer.refused == MANY_LINES, "refused lines in memory");
    rrdi_batch_file(NAME(PATH), lines, sizeof lines, 0, 0, false, printed, sizeof printed, NULL, MANY_LINES, &answer);
    want(answer.fault == RRDI_OK && answer.refused == MANY_LINES, "refused lines at a path");
    open_file(PATH);
    rrdi_batch_open(&opened, lines, sizeof lines, 0, printed, sizeof printed, NULL, MANY_LINES, &answer);
    want(answer.fault == RRDI_OK && answer.refused == MANY_LINES, "refused lines on an open file");
    rrdi_close(&opened);
}

/* ---- structs that are no open file */

static bool is_refused(int error) {
    return answer.fault == RRDI_CANNOT_OPEN && answer.system_error == (uint32_t)error && !answer.is_changed &&
           answer.explanation_length > 0 && answer.output_length == strlen("cannot open");
}

/* Checks that each call on a struct is refused, by this error of the system. */
static void test_each_call(struct rrdi_file *one, int error, const char *what) {
    struct rrdi_value value = rrdi_whole(1);
    struct rrdi_rows rows;
    uint64_t time = 40, refused[1];
    size_t stored = 7;
    memset(&answer, 0xa5, sizeof answer);
    memset(&rows, 0xa5, sizeof rows);
    rrdi_run_open(one, WORDS("last"), 0, output, sizeof output, &answer);
    want(is_refused(error), what);
    rrdi_batch_open(one, WORDS("last\n"), 0, output, sizeof output, refused, 1, &answer);
    want(is_refused(error) && !answer.refused, what);
    rrdi_update_open(one, time, &value, 1, output, sizeof output, &answer);
    want(is_refused(error), what);
    rrdi_update_many(one, &time, &value, 1, 1, &stored, output, sizeof output, &answer);
    want(is_refused(error) && !stored, what);
    rrdi_fetch_open(one, RRDI_LAST, 1, 0, 39, &rows, &value, 1, output, sizeof output, &answer);
    want(is_refused(error) && !rows.count && !rows.sources, what);
}

static void test_structs(void) {
    const int garbage[] = {0, 2, 0x7f, 0xa5, 0xff};
    struct rrdi_file one;
    put_file();
    for (size_t at = 0; at < sizeof garbage / sizeof *garbage; at++) {
        memset(&one, garbage[at], sizeof one);
        test_each_call(&one, EBADF, "a struct of garbage");
        memset(&one, garbage[at], sizeof one);
        rrdi_close(&one);
        rrdi_close(&one);
        memset(&one, garbage[at], sizeof one);
        rrdi_open(NAME(PATH), 0, false, &one, output, sizeof output, &answer);
        want(gave(RRDI_OK, false, "") && one.is_open, "an opening into garbage");
        rrdi_open(NAME(PATH), 0, false, &one, output, sizeof output, &answer);
        want(gave(RRDI_OK, false, "") && one.is_open, "an opening of the file that is open");
        rrdi_close(&one);
        rrdi_close(&one);
        test_each_call(&one, EBADF, "a struct that was closed twice");
    }
}

/* ---- a fork */

static void use_in_child(void) {
    test_each_call(&opened, ECHILD, "an open file of the parent");
    want(explains("another process opened the file"), "why a child may not use an open file");
    rrdi_run_open(&opened, WORDS("last"), 0, output, 10, &answer);
    want(lacks_room(RRDI_CANNOT_OPEN, 11) && answer.system_error == ECHILD, "a refusal in a child without room for its text");
}

static void close_in_child(void) {
    use_in_child();
    in_child(use_in_child);
    rrdi_close(&opened);
    want(!opened.is_open, "a child has closed the file of its parent");
    test_each_call(&opened, EBADF, "a file that a child has closed");
    run_file(PATH, WORDS("update\00040:1"), 0);
    want(cannot_open(EAGAIN), "the parent's lock, when a child has closed the file");
}

static void open_in_child(void) {
    open_file(PATH);
    want(cannot_open(EAGAIN) && !opened.is_open, "a child opens the file that its parent has open");
}

static void open_other_in_child(void) {
    run_file("other", WORDS(CREATE), 0);
    open_file("other");
    want(gave(RRDI_OK, false, "") && opened.is_open, "a child opens another file by the struct of its parent");
    run_open(WORDS("update\00010:1"));
    want(gave(RRDI_OK, true, ""), "a child updates a file of its own");
    rrdi_close(&opened);
}

static void test_fork(void) {
    put_file();
    open_file(PATH);
    run_open(WORDS("update\00020:1"));
    in_child(use_in_child);
    in_child(close_in_child);
    in_child(open_in_child);
    in_child(open_other_in_child);
    run_open(WORDS("update\00030:1"));
    want(gave(RRDI_OK, true, ""), "an update of the parent, after its children");
    rrdi_close(&opened);
    run_file(PATH, WORDS("last"), 0);
    want(gave(RRDI_OK, false, "30\n"), "the file after a fork");
    run_file("other", WORDS("last"), 0);
    want(gave(RRDI_OK, false, "10\n"), "the file of a child");
}

/* ---- files that are created while somebody has them */

static void create_over(void) {
    run_file(PATH, WORDS(CREATE), 0);
    want(cannot_write(EAGAIN), "a create over an open file");
    run_file(PATH, WORDS(CREATE), 30);
    want(cannot_write(EAGAIN), "a create over an open file that waits");
    rrdi_create_new(NAME(PATH), WORDS(CREATE), 0, 0, false, output, sizeof output, &answer);
    want(cannot_write(EEXIST), "a new file in place of an open one");
}

static void test_create_over_open(void) {
    put_file();
    open_file(PATH);
    run_open(WORDS("update\00020:1"));
    create_over();
    in_child(create_over);
    has_no_links = true;
    create_over();
    has_no_links = false;
    run_open(WORDS("last"));
    want(gave(RRDI_OK, false, "20\n"), "an open file after creates");
    run_open(WORDS("update\00030:1"));
    rrdi_close(&opened);
    run_file(PATH, WORDS("last"), 0);
    want(gave(RRDI_OK, false, "30\n"), "the file after creates over it");
}

static struct rrdi_file second;
static struct rrdi_answer seen;

/* Another program creates a database at the path, opens it, and adds a sample. */
static void take_path(void) {
    uint8_t text[64];
    rrdi_run_file(NAME("raced"), WORDS(CREATE), 0, 0, false, text, sizeof text, &seen);
    if (seen.fault)
        return;
    rrdi_open(NAME("raced"), 0, false, &second, text, sizeof text, &seen);
    rrdi_run_open(&second, WORDS("update\00010:1"), 0, text, sizeof text, &seen);
}

static void take_and_leave_path(void) {
    take_path();
    rrdi_close(&second);
}

static void create_raced(void) {
    memset(&seen, 0, sizeof seen);
    rrdi_create_new(NAME("raced"), WORDS(CREATE), 0, 0, false, output, sizeof output, &answer);
}

/* Without links, and without a rename that replaces no file, an empty file has the name for a moment. Whoever creates a
 * database there keeps it. */
static void test_races_without_links(void) {
    has_no_links = true;
    before_rename = take_path;
    create_raced();
    want(gave(RRDI_OK, true, "") && held("raced") == 224, "a file that is created without links");
    want(seen.fault == RRDI_CANNOT_WRITE && seen.system_error == EAGAIN, "a create while another one is at work");
    for (int leaves = 0; leaves < 2; leaves++) {
        unlink("raced");
        before_lock = leaves ? take_and_leave_path : take_path;
        create_raced();
        want(cannot_write(EEXIST) && !before_lock, "a create that comes second");
        want(seen.fault == RRDI_OK && second.is_open == !leaves, "a create that comes first");
        rrdi_close(&second);
        run_file("raced", WORDS("last"), 0);
        want(gave(RRDI_OK, false, "10\n"), "the file of the first create");
    }
    has_no_links = false;
}

int main(void) {
    make_file();
    test_all_rooms();
    test_nulls();
    test_refused_without_room();
    test_structs();
    test_fork();
    test_create_over_open();
    test_races_without_links();
    return end();
}
