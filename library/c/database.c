/* SPDX-License-Identifier: MIT OR Apache-2.0 */
/* The first part of rrdi.h, over the functions of rrdi_c: a database in a struct that needs no preparation. */
#include <errno.h>
#include <stdlib.h>
#include <time.h>
#include <unistd.h>

#include "internal.h"

/* The milliseconds for which a call waits for a lock, as the program does. */
#define WAIT 5000

/* ---- the struct of a database */

/* Ends a call: makes the text of its fault, if there is one. Returns the fault. */
static uint32_t end(struct rrdi_db *db) {
    const struct rrdi_answer *answer = &db->answer;
    size_t length = 0;
    if (answer->fault) {
        const char *text = rrdi_strerror(answer->fault);
        size_t more = answer->explanation_length;
        length = answer->output_length;
        if (!length)
            memcpy(db->text, text, length = strlen(text));
        if (more) {
            memcpy(db->text + length, ": ", 2);
            memcpy(db->text + length + 2, answer->explanation, more);
            length += 2 + more;
        }
    }
    db->text[length] = 0;
    return answer->fault;
}

/* Ends a call that did nothing. Returns its fault. */
static uint32_t refuse(struct rrdi_db *db, uint32_t fault, int error, const char *why) {
    rrdi_refuse(fault, error, why, (uint8_t *)db->text, RRDI_TEXT, &db->answer);
    return end(db);
}

/* Whether rrdi_db_open has filled this struct. A copy, zeros and what is not a struct of a database are refused. */
static bool is_filled(struct rrdi_db *db) {
    if (!db)
        return false;
    if (db->self != db) {
        memset(&db->file, 0, sizeof db->file);
        refuse(db, RRDI_CANNOT_OPEN, EBADF, "rrdi_db_open has not filled the struct");
        return false;
    }
    if (db->process != getpid()) {
        refuse(db, RRDI_CANNOT_OPEN, ECHILD, "another process opened the file; open it in this one");
        return false;
    }
    return true;
}

/* Whether rrdi_db_open has opened a file, and rrdi_db_close has not closed it. */
static bool is_open(struct rrdi_db *db) {
    if (!is_filled(db))
        return false;
    if (!db->file.is_open)
        refuse(db, RRDI_CANNOT_OPEN, EBADF, "the database is closed");
    return db->file.is_open;
}

/* The words of a create: a zero byte in place of the spaces between two words. */
static uint8_t *words_of(const char *definition, size_t *length) {
    uint8_t *words = (uint8_t *)malloc(sizeof "create" + strlen(definition) + 1);
    if (!words)
        return NULL;
    memcpy(words, "create", *length = 6);
    for (const char *at = definition; *at; at++) {
        if (*at == ' ')
            continue;
        if (at == definition || at[-1] == ' ')
            words[(*length)++] = 0;
        words[(*length)++] = (uint8_t)*at;
    }
    return words;
}

/* Creates the database where there is no file. */
static uint32_t create(struct rrdi_db *db, const char *path, const char *definition, bool syncs) {
    struct rrdi_answer *answer = &db->answer;
    time_t now = time(NULL);
    size_t length;
    uint8_t *words = words_of(definition, &length);
    if (!words)
        return refuse(db, RRDI_NO_MEMORY, 0, "");
    rrdi_create_new(path, strlen(path), words, length, now < 0 ? 0 : (uint64_t)now, WAIT, syncs, (uint8_t *)db->text, RRDI_TEXT,
                    answer);
    free(words);
    if (answer->fault == RRDI_CANNOT_WRITE && answer->system_error == EEXIST)
        return RRDI_OK;
    return end(db);
}

uint32_t rrdi_db_open(struct rrdi_db *db, const char *path, const char *definition, uint32_t options) {
    bool syncs = options & RRDI_SYNCS;
    if (!db)
        return RRDI_CANNOT_OPEN;
    memset(&db->file, 0, sizeof db->file);
    memset(&db->answer, 0, sizeof db->answer);
    db->self = db;
    db->process = getpid();
    if (options & ~(uint32_t)RRDI_SYNCS)
        return refuse(db, RRDI_USAGE, 0, "no such option");
    if (!path)
        return refuse(db, RRDI_CANNOT_OPEN, EINVAL, "the path is a null pointer");
    if (definition && create(db, path, definition, syncs))
        return db->answer.fault;
    rrdi_open(path, strlen(path), WAIT, syncs, &db->file, (uint8_t *)db->text, RRDI_TEXT, &db->answer);
    return end(db);
}

uint32_t rrdi_db_update(struct rrdi_db *db, uint64_t time, const struct rrdi_value *values, size_t count) {
    return rrdi_db_update_many(db, &time, values, 1, count, NULL);
}

uint32_t rrdi_db_update_many(struct rrdi_db *db, const uint64_t *times, const struct rrdi_value *values, size_t count,
                             size_t sources, size_t *stored) {
    if (stored)
        *stored = 0;
    if (!is_open(db))
        return RRDI_CANNOT_OPEN;
    rrdi_update_many(&db->file, times, values, count, sources, stored, (uint8_t *)db->text, RRDI_TEXT, &db->answer);
    return end(db);
}

uint32_t rrdi_db_fetch(struct rrdi_db *db, uint32_t function, uint64_t resolution, uint64_t start, uint64_t end_time,
                       struct rrdi_rows *rows, struct rrdi_value *values, size_t room) {
    struct rrdi_rows ignored;
    if (!rows)
        rows = &ignored;
    memset(rows, 0, sizeof *rows);
    if (!is_open(db))
        return RRDI_CANNOT_OPEN;
    rrdi_fetch_open(&db->file, function, resolution, start, end_time, rows, values, room, (uint8_t *)db->text, RRDI_TEXT,
                    &db->answer);
    return end(db);
}

uint32_t rrdi_db_last(struct rrdi_db *db, uint64_t *time) {
    if (time)
        *time = 0;
    if (!is_open(db))
        return RRDI_CANNOT_OPEN;
    rrdi_run_open(&db->file, (const uint8_t *)"last", 4, 0, (uint8_t *)db->text, RRDI_TEXT, &db->answer);
    if (!db->answer.fault && time) {
        db->text[db->answer.output_length] = 0;
        *time = strtoull(db->text, NULL, 10);
    }
    return end(db);
}

const char *rrdi_db_error(struct rrdi_db *db) {
    is_filled(db);
    return db && *db->text ? db->text : rrdi_strerror(db ? RRDI_OK : RRDI_CANNOT_OPEN);
}

void rrdi_db_close(struct rrdi_db *db) {
    if (is_filled(db))
        rrdi_close(&db->file);
}
