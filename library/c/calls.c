/* SPDX-License-Identifier: MIT OR Apache-2.0 */
/* The functions of rrdi_c, for any caller: a null pointer stands for no bytes, and an open file is used by the process that has
 * opened it, and by no child of it. */
#include <errno.h>
#include <stdatomic.h>
#include <stdlib.h>
#include <unistd.h>

#include "internal.h"

/* What is passed in place of a null pointer, with the length 0: nothing is read or written there. */
static uint64_t nothing[1];

/* Bytes that a function reads, or a room, with its length: two arguments of a call. */
#define READS(type, name) name ? name : (const type *)nothing, name ? name##_length : 0
#define ROOM(type, name) name ? name : (type *)nothing, name ? name##_room : 0

void rrdi_refuse(uint32_t fault, int error, const char *why, uint8_t *output, size_t output_room, struct rrdi_answer *answer) {
    const char *text = rrdi_strerror(fault);
    memset(answer, 0, offsetof(struct rrdi_answer, explanation));
    answer->fault = fault;
    answer->system_error = (uint32_t)error;
    answer->output_needed = strlen(text);
    answer->is_cut = !output || answer->output_needed > output_room;
    answer->output_length = answer->is_cut ? 0 : answer->output_needed;
    answer->explanation_length = strlen(why);
    if (!answer->is_cut)
        memcpy(output, text, answer->output_length);
    memcpy(answer->explanation, why, answer->explanation_length);
}

/* ---- files at a path, and in memory */

void rrdi_run(bool has_file, const uint8_t *file, size_t file_length, const uint8_t *words, size_t words_length, uint64_t now,
              uint8_t *new_file, size_t new_file_room, uint8_t *output, size_t output_room, struct rrdi_answer *answer) {
    rrdi_c_run(has_file, READS(uint8_t, file), READS(uint8_t, words), now, ROOM(uint8_t, new_file), ROOM(uint8_t, output), answer);
}

void rrdi_batch(bool has_file, const uint8_t *file, size_t file_length, const uint8_t *lines, size_t lines_length, uint64_t now,
                uint8_t *new_file, size_t new_file_room, uint8_t *output, size_t output_room, uint64_t *refused_lines,
                size_t refused_room, struct rrdi_answer *answer) {
    rrdi_c_batch(has_file, READS(uint8_t, file), READS(uint8_t, lines), now, ROOM(uint8_t, new_file), ROOM(uint8_t, output),
                 refused_lines ? refused_lines : nothing, refused_lines ? refused_room : 0, answer);
}

/* Has malloc keep the pages that a call frees, for the next call. glibc gives them back as soon as 128 KB at the end of its heap are
 * free, and a call by path would then spend half its time on getting them again. To free a block of 1 MB once raises that limit to
 * 2 MB (M_MMAP_THRESHOLD in mallopt(3)). */
static void keep_pages(void) {
    static atomic_flag is_done = ATOMIC_FLAG_INIT;
    if (!atomic_flag_test_and_set(&is_done)) {
        void *volatile block = malloc(1 << 20); /* volatile, since compilers leave out a block that nobody uses */
        free(block);
    }
}

void rrdi_run_file(const char *path, size_t path_length, const uint8_t *words, size_t words_length, uint64_t now, uint64_t wait,
                   bool syncs, uint8_t *output, size_t output_room, struct rrdi_answer *answer) {
    keep_pages();
    rrdi_c_run_file(READS(char, path), READS(uint8_t, words), now, wait, syncs, ROOM(uint8_t, output), answer);
}

void rrdi_batch_file(const char *path, size_t path_length, const uint8_t *lines, size_t lines_length, uint64_t now, uint64_t wait,
                     bool syncs, uint8_t *output, size_t output_room, uint64_t *refused_lines, size_t refused_room,
                     struct rrdi_answer *answer) {
    keep_pages();
    rrdi_c_batch_file(READS(char, path), READS(uint8_t, lines), now, wait, syncs, ROOM(uint8_t, output),
                      refused_lines ? refused_lines : nothing, refused_lines ? refused_room : 0, answer);
}

/* ---- open files */

/* Whether another process, such as the parent of this one, opened the file of a struct. What is not a struct of a file is made one
 * that has none. */
static bool is_of_another(struct rrdi_file *file) {
    uint8_t is_open;
    memcpy(&is_open, &file->is_open, 1); /* which is no bool in a struct of garbage */
    if (is_open > 1)
        memset(file, 0, sizeof *file);
    return is_open == 1 && file->process != (uint32_t)getpid();
}

/* Refuses the file of another process. Its lock is that process's, and its database in memory need not be that of the file. */
static bool is_refused(struct rrdi_file *file, uint8_t *output, size_t output_room, struct rrdi_answer *answer) {
    if (!is_of_another(file))
        return false;
    rrdi_refuse(RRDI_CANNOT_OPEN, ECHILD, "another process opened the file; open it in this one", output, output_room, answer);
    return true;
}

void rrdi_open(const char *path, size_t path_length, uint64_t wait, bool syncs, struct rrdi_file *file, uint8_t *output,
               size_t output_room, struct rrdi_answer *answer) {
    if (is_of_another(file))
        memset(file, 0, sizeof *file);
    rrdi_c_open(READS(char, path), wait, syncs, file, ROOM(uint8_t, output), answer);
    file->process = (uint32_t)getpid();
}

void rrdi_run_open(struct rrdi_file *file, const uint8_t *words, size_t words_length, uint64_t now, uint8_t *output,
                   size_t output_room, struct rrdi_answer *answer) {
    if (!is_refused(file, output, output_room, answer))
        rrdi_c_run_open(file, READS(uint8_t, words), now, ROOM(uint8_t, output), answer);
}

void rrdi_batch_open(struct rrdi_file *file, const uint8_t *lines, size_t lines_length, uint64_t now, uint8_t *output,
                     size_t output_room, uint64_t *refused_lines, size_t refused_room, struct rrdi_answer *answer) {
    if (!is_refused(file, output, output_room, answer))
        rrdi_c_batch_open(file, READS(uint8_t, lines), now, ROOM(uint8_t, output), refused_lines ? refused_lines : nothing,
                          refused_lines ? refused_room : 0, answer);
}

void rrdi_update_open(struct rrdi_file *file, uint64_t time, const struct rrdi_value *values, size_t count, uint8_t *output,
                      size_t output_room, struct rrdi_answer *answer) {
    if (!is_refused(file, output, output_room, answer))
        rrdi_c_update_open(file, time, values ? values : (const struct rrdi_value *)nothing, values ? count : 0,
                           ROOM(uint8_t, output), answer);
}

void rrdi_update_many(struct rrdi_file *file, const uint64_t *times, const struct rrdi_value *values, size_t count, size_t sources,
                      size_t *stored, uint8_t *output, size_t output_room, struct rrdi_answer *answer) {
    size_t at = 0;
    memset(answer, 0, offsetof(struct rrdi_answer, explanation));
    if (count && (!times || (sources && !values))) {
        rrdi_refuse(RRDI_BAD_WORD, 0, "the times or the values are a null pointer", output, output_room, answer);
        count = 0;
    }
    while (at < count) {
        rrdi_update_open(file, times[at], sources ? values + at * sources : NULL, sources, output, output_room, answer);
        if (answer->fault)
            break;
        at++;
    }
    if (stored)
        *stored = at;
}

void rrdi_fetch_open(struct rrdi_file *file, uint32_t function, uint64_t resolution, uint64_t start, uint64_t end,
                     struct rrdi_rows *rows, struct rrdi_value *values, size_t values_room, uint8_t *output, size_t output_room,
                     struct rrdi_answer *answer) {
    struct rrdi_rows ignored;
    rows = rows ? rows : &ignored;
    memset(rows, 0, sizeof *rows);
    if (!is_refused(file, output, output_room, answer))
        rrdi_c_fetch_open(file, function, resolution, start, end, rows, ROOM(struct rrdi_value, values), ROOM(uint8_t, output),
                          answer);
}

/* In a child the file stays the parent's: to free the memory, rrdi_c would release the lock. */
void rrdi_close(struct rrdi_file *file) {
    if (is_of_another(file))
        memset(file, 0, sizeof *file);
    else
        rrdi_c_close(file);
}
