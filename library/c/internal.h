/* SPDX-License-Identifier: MIT OR Apache-2.0 */
/* What the functions of rrdi.h stand on: those of rrdi_c, which are proved, and reports of faults. No program gets at these names:
 * neither library exports them. */
#ifndef RRDI_INTERNAL_H
#define RRDI_INTERNAL_H

#include "rrdi.h"

/* The functions of rrdi_c do what those of rrdi.h do, but take no null pointer, even for a length of 0, and no struct rrdi_file but
 * zeros and one that this process has filled. */
void rrdi_c_run(bool has_file, const uint8_t *file, size_t file_length, const uint8_t *words, size_t words_length, uint64_t now,
                uint8_t *new_file, size_t new_file_room, uint8_t *output, size_t output_room, struct rrdi_answer *answer);
void rrdi_c_batch(bool has_file, const uint8_t *file, size_t file_length, const uint8_t *lines, size_t lines_length, uint64_t now,
                  uint8_t *new_file, size_t new_file_room, uint8_t *output, size_t output_room, uint64_t *refused_lines,
                  size_t refused_room, struct rrdi_answer *answer);
void rrdi_c_run_file(const char *path, size_t path_length, const uint8_t *words, size_t words_length, uint64_t now, uint64_t wait,
                     bool syncs, uint8_t *output, size_t output_room, struct rrdi_answer *answer);
void rrdi_c_batch_file(const char *path, size_t path_length, const uint8_t *lines, size_t lines_length, uint64_t now, uint64_t wait,
                       bool syncs, uint8_t *output, size_t output_room, uint64_t *refused_lines, size_t refused_room,
                       struct rrdi_answer *answer);
void rrdi_c_open(const char *path, size_t path_length, uint64_t wait, bool syncs, struct rrdi_file *file, uint8_t *output,
                 size_t output_room, struct rrdi_answer *answer);
void rrdi_c_run_open(struct rrdi_file *file, const uint8_t *words, size_t words_length, uint64_t now, uint8_t *output,
                     size_t output_room, struct rrdi_answer *answer);
void rrdi_c_batch_open(struct rrdi_file *file, const uint8_t *lines, size_t lines_length, uint64_t now, uint8_t *output,
                       size_t output_room, uint64_t *refused_lines, size_t refused_room, struct rrdi_answer *answer);
void rrdi_c_update_open(struct rrdi_file *file, uint64_t time, const struct rrdi_value *values, size_t values_length,
                        uint8_t *output, size_t output_room, struct rrdi_answer *answer);
void rrdi_c_fetch_open(struct rrdi_file *file, uint32_t function, uint64_t resolution, uint64_t start, uint64_t end,
                       struct rrdi_rows *rows, struct rrdi_value *values, size_t values_room, uint8_t *output, size_t output_room,
                       struct rrdi_answer *answer);
void rrdi_c_close(struct rrdi_file *file);

/* Answers that a call did nothing but meet this fault, with the text of the fault as its output; `error` is an errno or 0, and `why`
 * the explanation, which fits. */
void rrdi_refuse(uint32_t fault, int error, const char *why, uint8_t *output, size_t output_room, struct rrdi_answer *answer);

#endif
