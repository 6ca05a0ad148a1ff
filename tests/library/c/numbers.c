/* SPDX-License-Identifier: MIT OR Apache-2.0 */
/* Tests the calls that take and give numbers in place of words, rrdi_update_open and rrdi_fetch_open, and the functions
   that make values of C's numbers: each call against the same command in words, on another file, and each function
   against printf and strtod. Run it in an empty folder; it prints each wrong result and the number of tests. */
#define _GNU_SOURCE
#include <errno.h>
#include <inttypes.h>
#include <stdarg.h>

#include "checks.h"

#define RANDOM_NUMBERS 200000
/* A data source of each type. */
#define EACH_TYPE                                                                                              \
    "create\0--step\00010\0--start\0000\0DS:g:GAUGE:100:U:U\0DS:c:COUNTER:100:U:U\0DS:d:DERIVE:100:U:U\0DS:a:" \
    "ABSOLUTE:100:U:U\0"                                                                                       \
    "RRA:LAST:0.5:1:8\0RRA:AVERAGE:0.5:2:8"
#define SOURCES 4
#define ROOM 64

static struct rrdi_value values[ROOM];
static struct rrdi_rows rows;

/* ---- values of C's numbers */

/* The text of a value, as a sample has it in words. */
static const char *text_of(struct rrdi_value value) {
    static char text[64];
    const char *sign = value.is_negative ? "-" : "";
    if (value.kind == RRDI_UNKNOWN)
        return "U";
    if (value.kind == RRDI_WHOLE)
        snprintf(text, sizeof text, "%s%" PRIu64, sign, value.units);
    else
        snprintf(text, sizeof text, "%s%" PRIu64 ".%06" PRIu32, sign, value.units, value.millionths);
    return text;
}

struct row {
    int64_t number;
    const char *text;
};

static void test_whole(void) {
    static const struct row rows_of[] = {
        {0, "0"}, {1, "1"}, {-1, "-1"}, {INT64_MAX, "9223372036854775807"}, {INT64_MIN, "-9223372036854775808"}};
    static const struct row millionths_of[] = {
        {0, "0.000000"},
        {1, "0.000001"},
        {-1, "-0.000001"},
        {21500000, "21.500000"},
        {-1000000, "-1.000000"},
        {INT64_MAX, "9223372036854.775807"},
        {INT64_MIN, "-9223372036854.775808"},
    };
    for (size_t at = 0; at < sizeof rows_of / sizeof *rows_of; at++)
        want(!strcmp(text_of(rrdi_whole(rows_of[at].number)), rows_of[at].text), rows_of[at].text);
    for (size_t at = 0; at < sizeof millionths_of / sizeof *millionths_of; at++)
        want(!strcmp(text_of(rrdi_millionths(millionths_of[at].number)), millionths_of[at].text),
             millionths_of[at].text);
    want(!strcmp(text_of(rrdi_count(UINT64_MAX)), "18446744073709551615"), "the greatest count");
    want(!strcmp(text_of(rrdi_count(0)), "0"), "the count 0");
}

/* Whether a double becomes the value whose text printf prints. */
static bool is_rounded(double number) {
    char text[400];
    snprintf(text, sizeof text, "%.6f", number);
    return !strcmp(text_of(rrdi_double(number)), text);
}

/* Whether a value becomes the double that strtod reads of its text. */
static bool is_nearest(struct rrdi_value value) {
    double right = strtod(text_of(value), NULL), number = rrdi_to_double(value);
    return !memcmp(&right, &number, sizeof number);
}

static void test_doubles(void) {
    static const double exact[] = {
        0.0, -0.0, 0.5, 1.0, -1.5, 21.25, 1e6, 0.1, 1e-6, -1e-6, 4e-7, 6e-7, 0x1p-21, 0x1p-22, 0x1p-23, 0x1p-1074,
        0.9999994, 0.9999996, -7.9999996, 123456789.123456789, 0x1p33, 0x1p53, 0x1.fffffffffffffp63,
        1000000000000000.125, 999999999999999999.0, 1e18, 1e19};
    for (size_t at = 0; at < sizeof exact / sizeof *exact; at++)
        want(is_rounded(exact[at]) && is_rounded(-exact[at]), "a double");
    /* Odd multiples of 2^-7 have seven decimals, of which the last is 5: they are in the middle of two millionths. */
    for (int odd = 1; odd < 999; odd += 2)
        want(is_rounded(odd / 128.0) && is_rounded(1e9 + odd / 128.0) && is_rounded(-odd / 128.0),
             "a double in the middle");
    static const double refused[] = {0x1p64, -0x1p64, 1e300, 1e308 * 10, -1e308 * 10};
    for (size_t at = 0; at < sizeof refused / sizeof *refused; at++) {
        struct rrdi_value value = rrdi_double(refused[at]);
        want(value.kind == RRDI_DECIMAL && value.units == UINT64_MAX && value.is_negative == (refused[at] < 0),
             "a double that is too great");
    }
    double none = strtod("nan", NULL);
    want(rrdi_double(none).kind == RRDI_UNKNOWN && rrdi_double(-none).kind == RRDI_UNKNOWN, "no number");
    struct rrdi_value unknown = {0};
    double back = rrdi_to_double(unknown);
    want(back != back, "no value");
}

static uint64_t next_random(void) {
    static uint64_t state = 88172645463325252u;
    state ^= state << 13;
    state ^= state >> 7;
    return state ^= state << 17;
}

static void test_random_numbers(void) {
    bool are_rounded = true, are_nearest = true;
    for (int at = 0; at < RANDOM_NUMBERS; at++) {
        uint64_t bits = next_random();
        /* Doubles from 2^-32 to 2^63. */
        uint64_t near = (bits & ~((uint64_t)2047 << 52)) | (991 + bits % 95) << 52;
        double number, middle = (double)(bits % 1000000000) / 1e6 + 0.5e-6;
        memcpy(&number, &near, sizeof number);
        are_rounded &= is_rounded(number) && is_rounded(middle);
        struct rrdi_value value = {next_random() >> (at % 64), (uint32_t)(bits % 1000000), RRDI_DECIMAL, at % 2};
        if (at % 3 == 0)
            value.millionths = at % 2 ? 0 : 15625 * (uint32_t)(bits % 64);
        are_nearest &= is_nearest(value);
    }
    want(are_rounded, "random doubles");
    want(are_nearest, "random values");
}

/* ---- an update */

static void update_open(uint64_t time, size_t number) {
    rrdi_update_open(&opened, time, values, number, output, sizeof output, &answer);
}

/* Runs the update on the open file `one`, and the same update in words on the file `other`: the same fault, text and
   bytes. */
static void same_update(uint64_t time, size_t number, uint32_t fault, const char *text) {
    static uint8_t one[1 << 16], other[1 << 16];
    char words[4096];
    int size = snprintf(words, sizeof words, "update%c%" PRIu64, 0, time);
    for (size_t at = 0; at < number; at++)
        size += snprintf(words + size, sizeof words - size, ":%s", text_of(values[at]));
    update_open(time, number);
    want(gave(fault, !fault, text), text);
    run_file("other", (const uint8_t *)words, size, 0);
    /* In words a sample has a value. */
    if (number > 0)
        want(gave(fault, !fault, text), "the same update in words");
    size_t length = bytes_of("other", other);
    want(stands_for("one", one) == length && !memcmp(one, other, length), "the file of an update");
}

static void all_whole(int64_t number) {
    for (size_t at = 0; at < SOURCES; at++)
        values[at] = rrdi_whole(number);
}

static void test_updates(void) {
    run_file("one", WORDS(EACH_TYPE), 0);
    run_file("other", WORDS(EACH_TYPE), 0);
    open_file("one");
    all_whole(5);
    same_update(10, SOURCES, RRDI_OK, "");
    values[0] = rrdi_double(21.25);
    values[1] = rrdi_count(4294967295);
    values[2] = rrdi_whole(INT64_MIN);
    values[3] = rrdi_millionths(1500000);
    same_update(20, SOURCES, RRDI_OK, "");
    /* The counter wraps at 2^32. */
    values[1] = rrdi_count(5);
    values[2] = rrdi_whole(INT64_MIN + 7);
    same_update(30, SOURCES, RRDI_OK, "");
    /* And at 2^64. */
    values[1] = rrdi_count(UINT64_MAX);
    same_update(40, SOURCES, RRDI_OK, "");
    values[1] = rrdi_count(9);
    values[0] = rrdi_double(-999999999999999872.0);
    same_update(50, SOURCES, RRDI_OK, "");
    memset(values, 0, sizeof values);
    same_update(60, SOURCES, RRDI_OK, "");
    values[0].units = values[0].millionths = UINT32_MAX;
    values[0].is_negative = true;
    values[1] = rrdi_count(10);
    same_update(75, SOURCES, RRDI_OK, "");
    /* A sample that is far away. */
    all_whole(1);
    same_update(1000003, SOURCES, RRDI_OK, "");
    same_update(9999999999, SOURCES, RRDI_OK, "");
    rrdi_close(&opened);
}

static void test_refused_updates(void) {
    run_file("one", WORDS(EACH_TYPE), 0);
    run_file("other", WORDS(EACH_TYPE), 0);
    open_file("one");
    all_whole(5);
    same_update(10, SOURCES, RRDI_OK, "");
    same_update(10, SOURCES, RRDI_REFUSED, "not later than 10");
    same_update(0, SOURCES, RRDI_REFUSED, "not later than 10");
    same_update(10000000000, SOURCES, RRDI_REFUSED, "bad time");
    same_update(UINT64_MAX, SOURCES, RRDI_REFUSED, "bad time");
    same_update(20, 0, RRDI_REFUSED, "wrong number of values");
    same_update(20, SOURCES - 1, RRDI_REFUSED, "wrong number of values");
    same_update(20, SOURCES + 1, RRDI_REFUSED, "wrong number of values");
    /* A COUNTER and a DERIVE take no decimal point, and a COUNTER nothing below 0. */
    for (size_t at = 0; at < SOURCES; at++) {
        static const double too_great[] = {1e18, -1e18, 1e300};
        all_whole(5);
        for (size_t great = 0; great < 2; great++) {
            values[at] = rrdi_double(too_great[great]);
            same_update(20, SOURCES, RRDI_REFUSED, "bad value");
        }
        values[at] = rrdi_double(too_great[2]);
        update_open(20, SOURCES);
        want(gave(RRDI_REFUSED, false, "bad value"), "a double that is too great");
    }
    all_whole(5);
    values[1] = rrdi_double(5);
    same_update(20, SOURCES, RRDI_REFUSED, "bad value");
    values[1] = rrdi_whole(-1);
    same_update(20, SOURCES, RRDI_REFUSED, "bad value");
    all_whole(5);
    values[2] = rrdi_millionths(5000000);
    same_update(20, SOURCES, RRDI_REFUSED, "bad value");
    values[2] = rrdi_count((uint64_t)1 << 63);
    same_update(20, SOURCES, RRDI_REFUSED, "bad value");
    all_whole(5);
    same_update(20, SOURCES, RRDI_OK, "");
    rrdi_close(&opened);
}

/* Values that no call has made. */
static void test_unreadable_values(void) {
    static uint8_t old[1 << 16];
    open_file("one");
    size_t size = bytes_of("one", old);
    for (size_t at = 0; at < SOURCES; at++) {
        static const struct rrdi_value unreadable[] = {
            {1, 0, 3, false},
            {0, 0, 255, false},
            {1, 1000000, RRDI_DECIMAL, false},
            {1, UINT32_MAX, RRDI_DECIMAL, true},
            {1, 1, RRDI_WHOLE, false},
        };
        for (size_t which = 0; which < sizeof unreadable / sizeof *unreadable; which++) {
            all_whole(5);
            values[at] = unreadable[which];
            update_open(100, SOURCES);
            want(gave(RRDI_BAD_WORD, false, "unreadable sample 1") && has_bytes("one", old, size),
                 "a value that cannot be read");
            char why[64];
            snprintf(why, sizeof why, "value %zu, for ", at + 1);
            want(explains(why), "which value cannot be read");
        }
    }
    all_whole(5);
    rrdi_update_open(&opened, 5, values, SOURCES, output, 16, &answer);
    want(lacks_room(RRDI_REFUSED, 17), "a refusal with room for 16 bytes");
    update_open(100, SOURCES);
    want(gave(RRDI_OK, true, ""), "an update after values that cannot be read");
    rrdi_close(&opened);
}

/* ---- a fetch */

static void print(char *text, size_t *size, const char *format, ...) {
    va_list of;
    va_start(of, format);
    *size += vsnprintf(text + *size, sizeof output - *size, format, of);
    va_end(of);
}

/* The text that the command `fetch` prints of the rows in `rows` and `values`. */
static size_t rows_text(char *text, const char *header) {
    size_t size = 0;
    print(text, &size, "%s\n", header);
    for (uint64_t row = 0; row < rows.count; row++) {
        print(text, &size, "%" PRIu64 ":", rows.start + (row + 1) * rows.step);
        for (uint64_t source = 0; source < rows.sources; source++) {
            struct rrdi_value value = values[row * rows.sources + source];
            print(text, &size, " %s", value.kind == RRDI_UNKNOWN ? "nan" : text_of(value));
        }
        print(text, &size, "\n");
    }
    return size;
}

static void fetch_open(uint32_t function, uint64_t resolution, uint64_t start, uint64_t end, size_t room) {
    rrdi_fetch_open(&opened, function, resolution, start, end, &rows, values, room, output, sizeof output, &answer);
}

static const char *const functions[] = {"AVERAGE", "MIN", "MAX", "LAST"};

static void fetch_words(uint32_t function, uint64_t resolution, uint64_t start, uint64_t end) {
    char words[256];
    int size =
        snprintf(words, sizeof words, "fetch%c%s%c--resolution%c%" PRIu64 "%c--start%c%" PRIu64 "%c--end%c%" PRIu64, 0,
                 functions[function], 0, 0, resolution, 0, 0, start, 0, 0, end);
    run_open((const uint8_t *)words, size);
}

/* Fetches rows as numbers, and in words: the same rows, or the same fault. */
static void same_fetch(uint32_t function, uint64_t resolution, uint64_t start, uint64_t end, uint32_t fault,
                       const char *text) {
    static char right[1 << 16];
    fetch_open(function, resolution, start, end, ROOM);
    want(gave(fault, false, text), text);
    size_t size = fault ? (size_t)snprintf(right, sizeof right, "%s", text) : rows_text(right, "time: g c d a");
    fetch_words(function, resolution, start, end);
    want(answer.fault == fault && answer.output_length == size && !memcmp(output, right, size),
         "the same fetch in words");
}

static void test_fetches(void) {
    static uint8_t old[1 << 16];
    open_file("one");
    size_t size = bytes_of("one", old);
    for (uint64_t start = 0; start <= 120; start += 7)
        for (uint64_t end = start; end <= 120; end += 9) {
            same_fetch(RRDI_LAST, 1, start, end, RRDI_OK, "");
            same_fetch(RRDI_AVERAGE, 20, start, end, RRDI_OK, "");
        }
    fetch_open(RRDI_LAST, 1, 0, 35, ROOM);
    want(rows.start == 0 && rows.step == 10 && rows.count == 4 && rows.sources == SOURCES, "the rows of a fetch");
    fetch_open(RRDI_AVERAGE, 1, 0, 35, ROOM);
    want(rows.start == 0 && rows.step == 20 && rows.count == 2 && rows.sources == SOURCES, "the rows of an average");
    same_fetch(RRDI_MIN, 1, 0, 10, RRDI_REFUSED, "no archive for this function");
    same_fetch(RRDI_MAX, 1, 0, 10, RRDI_REFUSED, "no archive for this function");
    same_fetch(RRDI_LAST, 1, 11, 10, RRDI_REFUSED, "bad span");
    same_fetch(RRDI_LAST, 1, 0, 10000000000, RRDI_REFUSED, "bad time");
    same_fetch(RRDI_LAST, 1, UINT64_MAX, UINT64_MAX, RRDI_REFUSED, "bad time");
    same_fetch(RRDI_LAST, 1, 0, 9999999999, RRDI_REFUSED, "span too long");
    same_fetch(RRDI_LAST, UINT64_MAX, 0, 10, RRDI_OK, "");
    same_fetch(RRDI_LAST, 0, 0, 10, RRDI_OK, "");
    static const uint32_t none[] = {4, 256, UINT32_MAX};
    for (size_t at = 0; at < sizeof none / sizeof *none; at++) {
        fetch_open(none[at], 1, 0, 10, ROOM);
        want(gave(RRDI_BAD_WORD, false, "unreadable function") && explains("a function is a number from 0 to 3"),
             "a function that there is not");
    }
    want(has_bytes("one", old, size), "a fetch changes nothing");
    rrdi_close(&opened);
}

/* Room for fewer values than there are: the rows are counted, and the room stays. */
static void test_room(void) {
    open_file("one");
    for (size_t room = 0; room <= 2 * SOURCES; room++) {
        memset(values, 0x5a, sizeof values);
        memset(&rows, 0x5a, sizeof rows);
        fetch_open(RRDI_LAST, 1, 95, 105, room);
        bool fits = room == 2 * SOURCES;
        want(gave(fits ? RRDI_OK : RRDI_NO_ROOM, false, ""), "a fetch with some room");
        want(rows.start == 90 && rows.step == 10 && rows.count == 2 && rows.sources == SOURCES,
             "the rows that there are");
        for (size_t at = 0; at < ROOM; at++) {
            uint8_t bytes[sizeof *values];
            memset(bytes, 0x5a, sizeof bytes);
            bool is_old = !memcmp(&values[at], bytes, sizeof bytes);
            if (is_old != (!fits || at >= room))
                want(false, "the values of a fetch with some room");
        }
    }
    rrdi_close(&opened);
}

/* ---- files that are not open, or that a call lets go of */

static void test_unopened(const char *what) {
    all_whole(1);
    update_open(2000, SOURCES);
    want(cannot_open(EBADF) && !opened.is_open, what);
    fetch_open(RRDI_LAST, 1, 0, 10, ROOM);
    want(cannot_open(EBADF) && !opened.is_open, what);
    fetch_open(UINT32_MAX, 1, 0, 10, ROOM);
    want(cannot_open(EBADF), what);
    rrdi_close(&opened);
}

static void update_ten(void) {
    update_open(10, SOURCES);
}

static void update_twenty(void) {
    update_open(20, SOURCES);
}

/* After an update that cannot be written the file is opened and read again, by a fetch too. */
static void test_failed_update(void) {
    run_file("limited", WORDS(EACH_TYPE), 0);
    open_file("limited");
    size_t size = held("limited");
    all_whole(1);
    for (int call = 0; call < 2; call++) {
        with_limit(size, update_ten);
        bool is_right = gave(RRDI_CANNOT_WRITE, false, "cannot write") && answer.system_error;
        want(is_right && opened.is_open && held("limited") == size, "an update under a limit on the size of files");
        if (call == 0) {
            fetch_open(RRDI_LAST, 1, 0, 10, ROOM);
            want(gave(RRDI_OK, false, "") && rows.count == 2 && values[0].kind == RRDI_UNKNOWN,
                 "a fetch after an update that failed");
        } else {
            update_open(10, SOURCES);
            want(gave(RRDI_OK, true, "") && held("limited") > size, "an update after one that failed");
        }
    }
    with_limit(size, update_twenty);
    want(answer.fault == RRDI_CANNOT_WRITE, "another update under a limit");
    remove("limited");
    fetch_open(RRDI_LAST, 1, 0, 10, ROOM);
    want(cannot_open(ENOENT), "a fetch of a file that is gone");
    rrdi_close(&opened);
}

int main(void) {
    want(sizeof(struct rrdi_value) == 16 && sizeof(struct rrdi_rows) == 32, "the sizes of the structs");
    test_whole();
    test_doubles();
    test_random_numbers();
    test_unopened("a struct of zeros");
    test_updates();
    test_refused_updates();
    test_unreadable_values();
    test_unopened("a file that was closed");
    test_fetches();
    test_room();
    test_failed_update();
    return end();
}
