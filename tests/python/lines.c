/* SPDX-License-Identifier: MIT OR Apache-2.0 */
/* A library that replaces librrdi in tests: it keeps the words or lines of its last call and the room for the output, and
 * accepts them, or gives the answer that a test has set. */
#include "rrdi.h"

#include <stdlib.h>
#include <string.h>

static uint8_t given[65536];
static size_t length;
static size_t room;
static int calls;
static struct rrdi_answer given_answer;
static const char *given_output = "";

const uint8_t *last_given(void) { return given; }
size_t last_length(void) { return length; }
size_t last_room(void) { return room; }
int call_count(void) { return calls; }

/* Take the places of realloc and free in record.c: there are so many blocks left, or any number; what is behind each block stays; and
 * each block is freed. */
#define BEHIND 64
#define MOST_BLOCKS 8
static long blocks_left = -1;
static size_t block_count, refused_room;
static int damaged, live;
static struct {
    uint8_t *bytes;
    size_t size;
} blocks[MOST_BLOCKS];

void set_blocks(long count) { blocks_left = count; }
int damaged_blocks(void) { return damaged; }
int live_blocks(void) { return live; }
size_t last_refused_room(void) { return refused_room; }

/* Counts the blocks behind which something was written, and forgets all. */
static void check_blocks(void) {
    for (size_t at = 0; at < block_count; at++) {
        for (size_t behind = 0; behind < BEHIND; behind++) damaged += blocks[at].bytes[blocks[at].size + behind] != 0xa5;
    }
    block_count = 0;
}

void *some_blocks(void *block, size_t size) {
    size_t at = 0;
    if (blocks_left == 0) {
        block_count = 0; /* the call ends, and frees them */
        return NULL;
    }
    if (blocks_left > 0) blocks_left--;
    while (at < block_count && blocks[at].bytes != block) at++;
    if (at == MOST_BLOCKS) return NULL;
    if (block != NULL && at < block_count) {
        for (size_t behind = 0; behind < BEHIND; behind++) damaged += blocks[at].bytes[blocks[at].size + behind] != 0xa5;
    }
    uint8_t *grown = realloc(block, size + BEHIND);
    if (grown == NULL) return NULL;
    memset(grown + size, 0xa5, BEHIND);
    live += block == NULL;
    blocks[at].bytes = grown;
    blocks[at].size = size;
    if (at == block_count) block_count++;
    return grown;
}

void free_block(void *block) {
    live -= block != NULL;
    free(block);
}

/* Sets the answer of later calls; the text must stay. */
void set_answer(uint32_t fault, uint32_t system_error, uint64_t refused, const char *output) {
    memset(&given_answer, 0, sizeof given_answer);
    given_answer.fault = fault;
    given_answer.system_error = system_error;
    given_answer.refused = refused;
    given_answer.output_length = strlen(output);
    given_output = output;
}

static void keep(const uint8_t *bytes, size_t count, uint8_t *output, size_t output_length, struct rrdi_answer *answer) {
    size_t most = given_answer.output_length < output_length ? given_answer.output_length : output_length;
    check_blocks();
    calls++;
    length = count < sizeof given ? count : sizeof given;
    memcpy(given, bytes, length);
    room = output_length;
    memcpy(output, given_output, most);
    *answer = given_answer;
}

void rrdi_run_file(const char *path, size_t path_length, const uint8_t *words, size_t words_length, uint64_t now,
                   uint64_t wait, bool syncs, uint8_t *output, size_t output_length, struct rrdi_answer *answer) {
    (void)path, (void)path_length, (void)now, (void)wait, (void)syncs;
    keep(words, words_length, output, output_length, answer);
}

void rrdi_batch_file(const char *path, size_t path_length, const uint8_t *lines, size_t lines_length, uint64_t now,
                     uint64_t wait, bool syncs, uint8_t *output, size_t output_length, uint64_t *refused,
                     size_t refused_length, struct rrdi_answer *answer) {
    (void)path, (void)path_length, (void)now, (void)wait, (void)syncs;
    refused_room = refused_length;
    if (refused_length > 0) refused[0] = 2;
    keep(lines, lines_length, output, output_length, answer);
}
