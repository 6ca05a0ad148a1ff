/* SPDX-License-Identifier: MIT OR Apache-2.0 */
/* Functions of RRDtool's library for programs in C that record, such as collectd's plugin rrdtool. The functions write
 * databases of rrdi, by the library librrdi. Load this library before RRDtool's own library:
 *
 *     LD_PRELOAD=/usr/local/lib/rrdi/librrdi-record.so collectd
 *
 * The functions have the names, arguments and results of rrd.h. docs/migrate.md lists the differences.
 *
 * An update stores each sample that rrdi accepts, and fails if rrdi refuses a sample. Numbers may have an exponent and any
 * number of digits; the functions round numbers to millionths, and halves up. A call with a space or a control character in
 * a definition, a sample or a name fails and changes nothing. */
#define _POSIX_C_SOURCE 200809L
#include "rrdi.h"

#include <errno.h>
#include <stdarg.h>
#include <stdio.h>
#include <stdlib.h>
#include <string.h>
#include <strings.h>
#include <time.h>
#include <unistd.h>

/* The time to wait for a lock that another program holds, in milliseconds. */
#define WAIT 5000
#define DECIMALS 6
#define EXPORTED __attribute__((visibility("default")))

/* The error of this thread; empty without an error. */
static _Thread_local char error[1024];

EXPORTED char *rrd_get_error(void) { return error; }

EXPORTED void rrd_clear_error(void) { error[0] = '\0'; }

EXPORTED int rrd_test_error(void) { return error[0] != '\0'; }

__attribute__((format(printf, 1, 2))) static int fail(const char *format, ...) {
    va_list values;
    va_start(values, format);
    vsnprintf(error, sizeof error, format, values);
    va_end(values);
    return -1;
}

/* ---- Text that grows */

struct text {
    char *bytes;
    size_t length, room;
    bool has_failed;
};

static void add(struct text *text, const char *bytes, size_t length) {
    if (text->has_failed) return;
    if (text->length + length > text->room) {
        size_t room = 2 * (text->length + length) + 256;
        char *grown = realloc(text->bytes, room);
        if (grown == NULL) {
            text->has_failed = true;
            return;
        }
        text->bytes = grown;
        text->room = room;
    }
    if (length > 0) memcpy(text->bytes + text->length, bytes, length);
    text->length += length;
}

static void add_string(struct text *text, const char *string) { add(text, string, strlen(string)); }

static void add_zeros(struct text *text, long count) {
    while (count-- > 0) add(text, "0", 1);
}

/* ---- Numbers */

/* A number in parts: its digits without the point, and the number of digits before the point, which may be negative. */
struct number {
    bool is_negative;
    const char *first, *last; /* the digits, which may include a point */
    long before;
};

/* Reads a number such as -1.5e-05. Returns whether the whole text is a number. */
static bool read_number(const char *at, const char *end, struct number *number) {
    long digits = 0, exponent = 0;
    bool has_point = false, is_below = false;
    number->is_negative = at < end && *at == '-';
    if (at < end && (*at == '-' || *at == '+')) at++;
    number->first = at;
    number->before = 0;
    for (; at < end && ((*at >= '0' && *at <= '9') || (*at == '.' && !has_point)); at++) {
        if (*at == '.') {
            has_point = true;
        } else {
            digits++;
            number->before += !has_point;
        }
    }
    number->last = at;
    if (digits == 0) return false;
    if (at < end && (*at == 'e' || *at == 'E')) {
        at++;
        is_below = at < end && *at == '-';
        if (at < end && (*at == '-' || *at == '+')) at++;
        if (at == end) return false;
        for (; at < end && *at >= '0' && *at <= '9'; at++) {
            if (exponent < 1000) exponent = 10 * exponent + (*at - '0');
        }
    }
    number->before += is_below ? -exponent : exponent;
    return at == end;
}

/* Adds one to a number in decimal digits with a point and six decimals. If all digits are nines, a digit 1 comes to the front, and one
 * of the zeros at the end goes. */
static void increment(struct text *text, size_t from) {
    if (text->has_failed) return;
    size_t at = text->length;
    while (at > from) {
        at--;
        if (text->bytes[at] == '.') continue;
        if (text->bytes[at] != '9') {
            text->bytes[at]++;
            return;
        }
        text->bytes[at] = '0';
    }
    memmove(text->bytes + from + 1, text->bytes + from, text->length - from - 1);
    text->bytes[from] = '1';
}

/* Adds a number as rrdi reads it: without an exponent, and with six decimals at most. Rounds a half up. */
static void add_rounded(struct text *text, const struct number *number) {
    long place = number->before; /* the power of ten of the next digit, plus one */
    int rest = 0;                /* the dropped digits: 0 below a half, 1 a half, 2 above a half */
    bool is_first_cut = true;
    if (number->is_negative) add(text, "-", 1);
    size_t from = text->length;
    if (place <= 0) {
        add(text, "0.", 2);
        add_zeros(text, place < -DECIMALS ? DECIMALS : -place);
        if (place < -DECIMALS) is_first_cut = false;
    }
    for (const char *at = number->first; at < number->last; at++) {
        if (*at == '.') continue;
        if (place > -DECIMALS) {
            add(text, at, 1);
            place--;
            if (place == 0) add(text, ".", 1);
        } else if (is_first_cut) {
            rest = *at < '5' ? 0 : (*at == '5' ? 1 : 2);
            is_first_cut = false;
        } else if (*at != '0' && rest == 1) {
            rest = 2;
        }
    }
    if (place > 0) {
        add_zeros(text, place);
        add(text, ".", 1);
    }
    if (rest == 2 || (rest == 1 && !number->is_negative)) increment(text, from);
    while (!text->has_failed && text->bytes[text->length - 1] == '0') text->length--;
    if (!text->has_failed && text->bytes[text->length - 1] == '.') text->length--;
}

/* Adds one field of a definition or a sample: a number, or the unchanged text, which rrdi refuses if it is invalid. */
static void add_field(struct text *text, const char *at, const char *end) {
    struct number number;
    size_t length = (size_t)(end - at);
    if ((length == 3 || (length == 4 && (*at == '-' || *at == '+'))) && strncasecmp(end - 3, "nan", 3) == 0) {
        add(text, "U", 1);
    } else if (read_number(at, end, &number)) {
        add_rounded(text, &number);
    } else {
        add(text, at, length);
    }
}

/* Adds the fields of a text, with colons between them. The fields from `first` on are numbers. */
static void add_fields(struct text *text, const char *string, int first) {
    for (int field = 0;; field++) {
        const char *end = strchr(string, ':');
        if (end == NULL) end = string + strlen(string);
        if (field > 0) add(text, ":", 1);
        if (field >= first) {
            add_field(text, string, end);
        } else {
            add(text, string, (size_t)(end - string));
        }
        if (*end == '\0') return;
        string = end + 1;
    }
}

/* ---- The functions */

/* Checks that a text is one word. An update is a line, which has no quotes, so a space would begin another word, and a
 * line feed another command. */
static bool is_word(const char *text) {
    for (; *text != '\0'; text++) {
        if ((unsigned char)*text <= ' ' || *text == 127) return false;
    }
    return true;
}

/* Reports the first text that is no word. */
static int check_words(const char *path, const char *what, int count, const char **texts) {
    for (int at = 0; at < count; at++) {
        if (!is_word(texts[at])) return fail("%s: %s %d of %d has a space or a control character", path, what, at + 1, count);
    }
    return 0;
}

/* Reports the first definition that is none; it could be an option of rrdi. */
static int check_definitions(int count, const char **definitions) {
    for (int at = 0; at < count; at++) {
        if (strncmp(definitions[at], "DS:", 3) != 0 && strncmp(definitions[at], "RRA:", 4) != 0)
            return fail("can't parse argument '%s'", definitions[at]);
    }
    return 0;
}

/* Reports the answer of a call of rrdi. */
static int report(const char *path, struct rrdi_answer *answer, const char *output) {
    bool is_writing = answer->fault == RRDI_CANNOT_WRITE;
    if ((is_writing || answer->fault == RRDI_CANNOT_OPEN) && answer->system_error != 0) {
        return fail("%s '%s': %s", is_writing ? "writing" : "opening", path, strerror((int)answer->system_error));
    }
    if (answer->fault != RRDI_OK) return fail("%s: %s", path, output);
    return 0;
}

EXPORTED int rrd_create_r(const char *path, unsigned long step, time_t start, int count, const char **definitions) {
    struct text words = {0};
    struct rrdi_answer answer = {0};
    char output[512] = "", number[64];
    rrd_clear_error();
    if (check_words(path, "definition", count, definitions) != 0) return -1;
    if (check_definitions(count, definitions) != 0) return -1;
    add_string(&words, "create");
    snprintf(number, sizeof number, "--step=%lu", step);
    add(&words, "", 1);
    add_string(&words, number);
    if (start >= 0) {
        snprintf(number, sizeof number, "--start=%lld", (long long)start);
        add(&words, "", 1);
        add_string(&words, number);
    }
    for (int at = 0; at < count; at++) {
        add(&words, "", 1);
        /* Adds a definition: DS:name:type:heartbeat:min:max or RRA:function:xff:steps:rows. */
        add_fields(&words, definitions[at], strncmp(definitions[at], "DS:", 3) == 0 ? 4 : 2);
    }
    if (words.has_failed) {
        free(words.bytes);
        return fail("out of memory");
    }
    rrdi_run_file(path, strlen(path), (const uint8_t *)words.bytes, words.length,
                  (uint64_t)time(NULL), WAIT, false, (uint8_t *)output, sizeof output - 1, &answer);
    free(words.bytes);
    return report(path, &answer, output);
}

/* Adds a line that updates with one sample. Drops a fraction of the time's seconds. */
static void add_update(struct text *lines, const char *names, const char *sample) {
    const char *colon = strchr(sample, ':'), *point = strchr(sample, '.');
    add_string(lines, "update ");
    if (names != NULL) {
        add_string(lines, "--template=");
        add_string(lines, names);
        add(lines, " ", 1);
    }
    if (colon != NULL) {
        const char *end = point != NULL && point < colon ? point : colon;
        add(lines, sample, (size_t)(end - sample));
        add(lines, ":", 1);
        add_fields(lines, colon + 1, 0);
    } else {
        add_string(lines, sample);
    }
    add(lines, "\n", 1);
}

EXPORTED int rrd_update_r(const char *path, const char *names, int count, const char **samples) {
    struct text lines = {0}, output = {0};
    struct rrdi_answer answer = {0};
    uint64_t refused[1] = {0};
    rrd_clear_error();
    if (access(path, F_OK) != 0) return fail("opening '%s': %s", path, strerror(errno));
    if (names != NULL && !is_word(names)) return fail("%s: the template has a space or a control character", path);
    if (check_words(path, "sample", count, samples) != 0) return -1;
    for (int at = 0; at < count; at++) add_update(&lines, names, samples[at]);
    /* Each line prints at most one short message. */
    add_zeros(&output, 128L * (count > 0 ? count : 1) + 512);
    if (lines.has_failed || output.has_failed) {
        free(lines.bytes);
        free(output.bytes);
        return fail("out of memory");
    }
    rrdi_batch_file(path, strlen(path), (const uint8_t *)lines.bytes, lines.length,
                    (uint64_t)time(NULL), WAIT, false, (uint8_t *)output.bytes, output.length - 1, refused, 1, &answer);
    output.bytes[answer.output_length < output.length ? answer.output_length : 0] = '\0';
    /* If the lines were run, the output is the output of the lines, and not the text of the fault. */
    const char *told = answer.fault == RRDI_CANNOT_WRITE ? "cannot write" : output.bytes;
    int status = report(path, &answer, answer.fault == RRDI_NO_MEMORY ? "out of memory" : told);
    if (status == 0 && answer.refused > 0) {
        char *end = strchr(output.bytes, '\n');
        if (end != NULL) *end = '\0';
        const char *reason = strncmp(output.bytes, "ERROR: ", 7) == 0 ? output.bytes + 7 : output.bytes;
        status = fail("%s: sample %llu of %d: %s", path, (unsigned long long)refused[0], count, reason);
    }
    free(lines.bytes);
    free(output.bytes);
    return status;
}
