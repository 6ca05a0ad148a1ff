/* SPDX-License-Identifier: MIT OR Apache-2.0 */
/* A C library of rrdi whose functions are those that a test gives, each in its place of `stub_functions`. Those that it does not
 * give do nothing, except that files open, and print a line when they are closed. */
#include <unistd.h>

#include "rrdi.h"

void *stub_functions[11];

#define CALL(place, function, ...) \
    if (stub_functions[place])     \
    ((__typeof__(function) *)stub_functions[place])(__VA_ARGS__)

void rrdi_run(bool has_file, const uint8_t *file, size_t file_length, const uint8_t *words, size_t words_length,
              uint64_t now, uint8_t *new_file, size_t new_file_room, uint8_t *output, size_t output_room,
              struct rrdi_answer *answer) {
    CALL(0, rrdi_run, has_file, file, file_length, words, words_length, now, new_file, new_file_room, output, output_room,
         answer);
}

void rrdi_batch(bool has_file, const uint8_t *file, size_t file_length, const uint8_t *lines, size_t lines_length,
                uint64_t now, uint8_t *new_file, size_t new_file_room, uint8_t *output, size_t output_room,
                uint64_t *refused_lines, size_t refused_room, struct rrdi_answer *answer) {
    CALL(1, rrdi_batch, has_file, file, file_length, lines, lines_length, now, new_file, new_file_room, output, output_room,
         refused_lines, refused_room, answer);
}

void rrdi_run_file(const char *path, size_t path_length, const uint8_t *words, size_t words_length, uint64_t now,
                   uint64_t wait, bool syncs, uint8_t *output, size_t output_room, struct rrdi_answer *answer) {
    CALL(2, rrdi_run_file, path, path_length, words, words_length, now, wait, syncs, output, output_room, answer);
}

void rrdi_batch_file(const char *path, size_t path_length, const uint8_t *lines, size_t lines_length, uint64_t now,
                     uint64_t wait, bool syncs, uint8_t *output, size_t output_room, uint64_t *refused_lines,
                     size_t refused_room, struct rrdi_answer *answer) {
    CALL(3, rrdi_batch_file, path, path_length, lines, lines_length, now, wait, syncs, output, output_room, refused_lines,
         refused_room, answer);
}

void rrdi_open(const char *path, size_t path_length, uint64_t wait, bool syncs, struct rrdi_file *file, uint8_t *output,
               size_t output_room, struct rrdi_answer *answer) {
    CALL(4, rrdi_open, path, path_length, wait, syncs, file, output, output_room, answer);
    else file->is_open = true;
}

void rrdi_run_open(struct rrdi_file *file, const uint8_t *words, size_t words_length, uint64_t now, uint8_t *output,
                   size_t output_room, struct rrdi_answer *answer) {
    CALL(5, rrdi_run_open, file, words, words_length, now, output, output_room, answer);
}

void rrdi_batch_open(struct rrdi_file *file, const uint8_t *lines, size_t lines_length, uint64_t now, uint8_t *output,
                     size_t output_room, uint64_t *refused_lines, size_t refused_room, struct rrdi_answer *answer) {
    CALL(6, rrdi_batch_open, file, lines, lines_length, now, output, output_room, refused_lines, refused_room, answer);
}

void rrdi_update_open(struct rrdi_file *file, uint64_t time, const struct rrdi_value *values, size_t count, uint8_t *output,
                      size_t output_room, struct rrdi_answer *answer) {
    CALL(7, rrdi_update_open, file, time, values, count, output, output_room, answer);
}

void rrdi_update_many(struct rrdi_file *file, const uint64_t *times, const struct rrdi_value *values, size_t count, size_t sources,
                      size_t *stored, uint8_t *output, size_t output_room, struct rrdi_answer *answer) {
    CALL(8, rrdi_update_many, file, times, values, count, sources, stored, output, output_room, answer);
}

void rrdi_fetch_open(struct rrdi_file *file, uint32_t function, uint64_t resolution, uint64_t start, uint64_t end,
                     struct rrdi_rows *rows, struct rrdi_value *values, size_t values_room, uint8_t *output, size_t output_room,
                     struct rrdi_answer *answer) {
    CALL(9, rrdi_fetch_open, file, function, resolution, start, end, rows, values, values_room, output, output_room, answer);
}

void rrdi_close(struct rrdi_file *file) {
    CALL(10, rrdi_close, file);
    else if (file->is_open) {
        file->is_open = false;
        if (write(1, "closed\n", 7) < 7)
            _exit(1);
    }
}
