/* SPDX-License-Identifier: MIT OR Apache-2.0 */
/* Samples of Python's numbers and texts, as values of rrdi.h and as the words of an update; rows as Python's numbers; and lines of
 * rrdi-feed.
 *
 * What is not surely a sample is left to samples.py, which says what is wrong with it. Nothing here runs code of Python's, so no
 * list changes meanwhile. */
#ifndef RRDI_NUMBERS_H
#define RRDI_NUMBERS_H

#include <math.h>
#include <stdio.h>
#include <stdlib.h>

#include "rrdi.h"

#define MOST_SOURCES 64
#define DEEPEST 2         /* lists of samples in lists: a deeper one, or one that has itself, is for Python */
#define LATEST 9999999999 /* a time, as limits.py has it */
#define USUAL_DIGITS 10   /* of a time */
#define LARGEST 1e18      /* from here on samples.py says which numbers are good */

/* Bytes that belong to an object of Python's, or to a job. */
struct bytes {
    char *at;
    Py_ssize_t length;
};

struct sample {
    bool is_now;
    uint64_t time;
    size_t count;
    struct rrdi_value values[MOST_SOURCES];
};

static bool is_list(PyObject *part) {
    return PyTuple_CheckExact(part) || PyList_CheckExact(part);
}

static Py_ssize_t count_of(PyObject *list) {
    return PyTuple_CheckExact(list) ? PyTuple_Size(list) : PyList_Size(list);
}

/* Returns a borrowed part of a list or tuple. */
static PyObject *part_of(PyObject *list, Py_ssize_t at) {
    return PyTuple_CheckExact(list) ? PyTuple_GetItem(list, at) : PyList_GetItem(list, at);
}

static bool read_time(PyObject *given, struct sample *sample) {
    if (PyLong_CheckExact(given)) {
        int overflow;
        long long time = PyLong_AsLongLongAndOverflow(given, &overflow);
        sample->time = (uint64_t)time;
        return !overflow && time >= 0 && time <= LATEST;
    }
    if (PyFloat_CheckExact(given)) {
        double time = PyFloat_AsDouble(given);
        bool is_good = time >= 0 && time < LATEST + 1.0;
        sample->time = is_good ? (uint64_t)time : 0;
        return is_good;
    }
    return sample->is_now = PyUnicode_CheckExact(given) && !PyUnicode_CompareWithASCIIString(given, "N");
}

/* Reads a value as samples.py writes it: a float that is whole at six decimals has no point. */
static bool read_value(PyObject *given, struct rrdi_value *value) {
    if (PyFloat_CheckExact(given)) {
        double number = PyFloat_AsDouble(given);
        *value = rrdi_double(number);
        if (value->kind == RRDI_UNKNOWN)
            return true;
        if (!value->millionths) {
            value->kind = RRDI_WHOLE;
            value->is_negative = value->is_negative && value->units;
        }
        return fabs(number) < LARGEST;
    }
    if (PyLong_CheckExact(given)) {
        int overflow;
        long long number = PyLong_AsLongLongAndOverflow(given, &overflow);
        *value = rrdi_whole(number);
        if (overflow > 0) {
            *value = rrdi_count(PyLong_AsUnsignedLongLong(given));
            if (PyErr_Occurred()) {
                PyErr_Clear();
                return false;
            }
        }
        return overflow >= 0;
    }
    *value = (struct rrdi_value){0};
    return given == Py_None;
}

/* Reads at most so many digits. Returns whether there is one. */
static bool read_digits(const char **text, uint64_t *number, int most) {
    const char *first = *text;
    for (; **text >= '0' && **text <= '9' && *text - first < most; ++*text)
        *number = 10 * *number + (uint64_t)(**text - '0');
    return *text > first;
}

/* Reads a value of a sample in words, after its colon. */
static bool read_word(const char **text, struct rrdi_value *value) {
    *value = (struct rrdi_value){0};
    if (**text == 'U') {
        ++*text;
        return true;
    }
    bool is_negative = **text == '-';
    uint64_t millionths = 0;
    *text += is_negative;
    value->kind = RRDI_WHOLE;
    if (!read_digits(text, &value->units, 19))
        return false;
    if (**text == '.') {
        const char *first = ++*text;
        value->kind = RRDI_DECIMAL;
        if (!read_digits(text, &millionths, 6))
            return false;
        for (long count = *text - first; count < 6; count++)
            millionths *= 10;
    }
    value->millionths = (uint32_t)millionths;
    value->is_negative = is_negative && (value->units || millionths);
    return true;
}

/* Reads a sample in words, whose numbers are not so long that only the library reads them. */
static bool read_words(const char *text, struct sample *sample) {
    sample->is_now = *text == 'N';
    if (sample->is_now)
        text++;
    else if (!read_digits(&text, &sample->time, 19) || sample->time > LATEST)
        return false;
    while (*text == ':' && sample->count < MOST_SOURCES) {
        text++;
        if (!read_word(&text, &sample->values[sample->count++]))
            return false;
    }
    return !*text && sample->count;
}

static bool read_text(PyObject *given, struct sample *sample) {
    PyObject *bytes = PyUnicode_AsUTF8String(given);
    bool is_good = bytes && read_words(PyBytes_AsString(bytes), sample);
    is_good = is_good && !memchr(PyBytes_AsString(bytes), 0, (size_t)PyBytes_Size(bytes));
    Py_XDECREF(bytes);
    PyErr_Clear();
    return is_good;
}

/* Reads a time and values, or a time and a list of values. */
static bool read_sample(PyObject *given, struct sample *sample) {
    if (!is_list(given) || count_of(given) < 2 || !read_time(part_of(given, 0), sample))
        return false;
    PyObject *values = given;
    Py_ssize_t first = 1;
    if (count_of(given) == 2 && is_list(part_of(given, 1))) {
        values = part_of(given, 1);
        first = 0;
    }
    Py_ssize_t count = count_of(values) - first;
    if (count < 1 || count > MOST_SOURCES)
        return false;
    sample->count = (size_t)count;
    for (Py_ssize_t at = 0; at < count; at++)
        if (!read_value(part_of(values, first + at), &sample->values[at]))
            return false;
    return true;
}

/* A text that is being written. After a lack of memory `at` is NULL. */
struct writer {
    struct bytes text;
    Py_ssize_t room;
};

static bool put(struct writer *writer, const char *text, Py_ssize_t length) {
    if (writer->room - writer->text.length < length) {
        Py_ssize_t room = 2 * writer->room + length + 64;
        char *more = realloc(writer->text.at, (size_t)room);
        if (!more)
            return false;
        writer->text.at = more;
        writer->room = room;
    }
    memcpy(writer->text.at + writer->text.length, text, (size_t)length);
    writer->text.length += length;
    return true;
}

/* Writes a value with its colon, and a fraction without zeros at its end. */
static bool put_value(struct writer *writer, const struct rrdi_value *value) {
    char text[40];
    const char *sign = value->is_negative ? "-" : "";
    int length = value->kind == RRDI_UNKNOWN ? snprintf(text, sizeof text, ":U")
                 : value->kind == RRDI_WHOLE ? snprintf(text, sizeof text, ":%s%llu", sign, (unsigned long long)value->units)
                                             : snprintf(text, sizeof text, ":%s%llu.%06u", sign,
                                                        (unsigned long long)value->units, (unsigned)value->millionths);
    while (value->kind == RRDI_DECIMAL && text[length - 1] == '0')
        length--;
    return put(writer, text, length);
}

static bool put_sample(struct writer *writer, const struct sample *sample) {
    char text[24];
    int length = sample->is_now ? snprintf(text, sizeof text, "N")
                                : snprintf(text, sizeof text, "%llu", (unsigned long long)sample->time);
    if (!put(writer, "", 1) || !put(writer, text, length))
        return false;
    for (size_t at = 0; at < sample->count; at++)
        if (!put_value(writer, &sample->values[at]))
            return false;
    return true;
}

/* Writes a text of the program as a word. */
static bool put_word(struct writer *writer, PyObject *word) {
    char *text;
    Py_ssize_t length;
    PyObject *bytes = PyUnicode_AsUTF8String(word);
    bool is_good = bytes && !PyBytes_AsStringAndSize(bytes, &text, &length) && !memchr(text, 0, (size_t)length) &&
                   put(writer, "", 1) && put(writer, text, length);
    Py_XDECREF(bytes);
    PyErr_Clear();
    return is_good;
}

static bool put_samples(struct writer *writer, PyObject *samples, int depth) {
    for (Py_ssize_t at = 0; at < count_of(samples); at++) {
        struct sample sample = {0};
        PyObject *given = part_of(samples, at);
        bool is_good = PyUnicode_CheckExact(given)           ? put_word(writer, given)
                       : !is_list(given) || !count_of(given) ? false
                       : is_list(part_of(given, 0))          ? depth && put_samples(writer, given, depth - 1)
                                                             : read_sample(given, &sample) && put_sample(writer, &sample);
        if (!is_good)
            return false;
    }
    return count_of(samples) > 0;
}

/* Writes an update with samples, which the caller frees. Returns nothing if Python has to write it. */
static struct bytes update_of(PyObject *samples) {
    struct writer writer = {{NULL, 0}, 0};
    if (put(&writer, "update", 6) && put_samples(&writer, samples, DEEPEST))
        return writer.text;
    free(writer.text.at);
    return (struct bytes){NULL, 0};
}

/* ---- Rows */

/* Returns a float; None for an unknown value. */
static PyObject *number_of(const struct rrdi_value *value) {
    if (value->kind != RRDI_UNKNOWN)
        return PyFloat_FromDouble(rrdi_to_double(*value));
    Py_INCREF(Py_None);
    return Py_None;
}

/* Makes the start, the step and the rows of a fetch in numbers. */
static PyObject *rows_of(const struct rrdi_rows *rows, const struct rrdi_value *value) {
    PyObject *list = PyList_New((Py_ssize_t)rows->count);
    for (uint64_t at = 0; list && at < rows->count; at++) {
        PyObject *row = PyTuple_New((Py_ssize_t)rows->sources);
        for (uint64_t source = 0; row && source < rows->sources; source++)
            PyTuple_SetItem(row, (Py_ssize_t)source, number_of(value++));
        PyList_SetItem(list, (Py_ssize_t)at, row);
    }
    if (PyErr_Occurred()) /* there was no memory for a row or a number */
        Py_CLEAR(list);
    return list ? Py_BuildValue("KKN", (unsigned long long)rows->start, (unsigned long long)rows->step, list) : NULL;
}

/* Reads a value as a row has it: a space, and a number with six decimals or nan. */
static bool read_printed(const char **text, struct rrdi_value *value) {
    uint64_t millionths = 0;
    *value = (struct rrdi_value){0};
    if (!strncmp(*text, " nan", 4)) {
        *text += 4;
        return true;
    }
    value->kind = RRDI_DECIMAL;
    value->is_negative = !strncmp(*text, " -", 2);
    if (**text != ' ' || (*text += 1 + value->is_negative, !read_digits(text, &value->units, 19)) || **text != '.')
        return false;
    const char *point = (*text)++;
    bool is_good = read_digits(text, &millionths, 6) && *text - point == 7;
    value->millionths = (uint32_t)millionths;
    return is_good;
}

/* Reads a row, after its time. Returns nothing if it has another form, or there is no memory. */
static PyObject *read_row(const char **text, Py_ssize_t sources) {
    PyObject *row = PyTuple_New(sources);
    for (Py_ssize_t source = 0; row && source < sources; source++) {
        struct rrdi_value value;
        PyObject *number = read_printed(text, &value) ? number_of(&value) : NULL;
        if (!number || PyTuple_SetItem(row, source, number))
            Py_CLEAR(row);
    }
    if (row && *(*text)++ != '\n')
        Py_CLEAR(row);
    return row;
}

/* Reads the lines of a fetch after their first: the time of the first row, the seconds to the next, and the rows. Returns nothing
 * if they have another form, or there is no memory. */
static PyObject *read_rows(const char *text, Py_ssize_t sources, uint64_t *first, uint64_t *step) {
    PyObject *rows = PyList_New(0);
    for (uint64_t count = 0; rows && *text; count++) {
        uint64_t time = 0;
        bool is_good = read_digits(&text, &time, 19) && *text++ == ':';
        *first = count == 0 ? time : *first;
        *step = count == 1 ? time - *first : *step;
        PyObject *row = is_good && time == *first + count * *step ? read_row(&text, sources) : NULL;
        if (!row || PyList_Append(rows, row))
            Py_CLEAR(rows);
        Py_XDECREF(row);
    }
    return rows;
}

/* Reads the names of the first line, which has a word before them. Returns nothing if it has another form. */
static PyObject *read_names(const char **text) {
    static const char letters[] = "abcdefghijklmnopqrstuvwxyzABCDEFGHIJKLMNOPQRSTUVWXYZ0123456789_";
    PyObject *names = PyList_New(0);
    *text += strcspn(*text, " \n");
    while (names && *(*text)++ == ' ') {
        size_t length = strspn(*text, letters);
        PyObject *name = length ? PyUnicode_FromStringAndSize(*text, (Py_ssize_t)length) : NULL;
        if (!name || PyList_Append(names, name))
            Py_CLEAR(names);
        Py_XDECREF(name);
        *text += length;
    }
    if (names && (*text)[-1] != '\n')
        Py_CLEAR(names);
    return names;
}

/* Makes the names, the time of the first row, the step and the rows of what a fetch has printed. Returns nothing, and no
 * exception, if it has another form, or one row. */
static PyObject *table_of(const char *text) {
    uint64_t first = 0, step = 0;
    PyObject *names = read_names(&text), *rows = NULL, *found = NULL;
    if (names)
        rows = read_rows(text, PyList_Size(names), &first, &step);
    if (rows && PyList_Size(rows) > 1)
        found = Py_BuildValue("NKKO", PyList_AsTuple(names), (unsigned long long)first, (unsigned long long)step, rows);
    Py_XDECREF(names);
    Py_XDECREF(rows);
    PyErr_Clear();
    return found;
}

/* ---- Lines of samples */

/* Whether Python's bytes are split at a byte. */
static bool is_space(char byte) {
    return byte == ' ' || (byte >= '\t' && byte <= '\r');
}

/* Takes the next word out of a line. An empty one is none. */
static struct bytes next_word(struct bytes *line) {
    const char *end = line->at + line->length;
    struct bytes word;
    while (line->at < end && is_space(*line->at))
        line->at++;
    word.at = line->at;
    while (line->at < end && !is_space(*line->at))
        line->at++;
    word.length = line->at - word.at;
    line->length = end - line->at;
    return word;
}

/* Appends the sample of a line to those of its file in a dict. Returns false, and has done nothing, if it has none of the file, or
 * the line has another form. */
static bool take_further(PyObject *held, PyObject *line, Py_ssize_t longest) {
    struct bytes text, file, word;
    if (!PyBytes_CheckExact(line) || PyBytes_AsStringAndSize(line, &text.at, &text.length) || text.length > longest)
        return false;
    file = next_word(&text);
    word = next_word(&text);
    if (!word.length || next_word(&text).length || *word.at < '0' || *word.at > '9')
        return false;
    PyObject *name = PyBytes_FromStringAndSize(file.at, file.length);
    PyObject *samples = name ? PyDict_GetItemWithError(held, name) : NULL;
    PyObject *sample = samples && PyList_CheckExact(samples) ? PyBytes_FromStringAndSize(word.at, word.length) : NULL;
    bool is_taken = sample && !PyList_Append(samples, sample);
    Py_XDECREF(sample);
    Py_XDECREF(name);
    PyErr_Clear(); /* there was no memory: Python tries the line again */
    return is_taken;
}

/* Checks whether samples have times of ten digits, none of which is before the last one. */
static bool are_ordered(PyObject *samples) {
    uint64_t last = 0;
    for (Py_ssize_t at = 0; at < PyList_Size(samples); at++) {
        PyObject *sample = PyList_GetItem(samples, at);
        const char *first = PyBytes_CheckExact(sample) ? PyBytes_AsString(sample) : "", *end = first;
        uint64_t time = 0;
        if (!read_digits(&end, &time, USUAL_DIGITS) || end - first < USUAL_DIGITS || *end != ':' || time < last)
            return false;
        last = time;
    }
    return true;
}

#endif
