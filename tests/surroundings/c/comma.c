/* SPDX-License-Identifier: MIT OR Apache-2.0 */
/* A program whose locale has a comma in numbers: what it gives to the library, and what it gets, has a point. */
#include <locale.h>
#include <rrdi.h>
#include <stdio.h>
#include <stdlib.h>
#include <string.h>

static void check(bool is_right, const char *what) {
    puts(is_right ? "ok" : what);
}

static void in_numbers(void) {
    static const double given[] = {1.5, -0.75, 0.1, 1234567.890625, 1e17};
    static struct rrdi_db db;
    struct rrdi_rows rows;
    struct rrdi_value values[8];
    check(rrdi_db_open(&db, "c.rrdi", "--step 10 --start 0 DS:g:GAUGE:100:-1.5:U RRA:LAST:0.25:1:8", 0) == 0, "open");
    for (uint64_t at = 0; at < 5; at++) {
        struct rrdi_value value = rrdi_double(given[at]);
        check(rrdi_db_update(&db, 10 * (at + 1), &value, 1) == 0, rrdi_db_error(&db));
    }
    check(rrdi_db_fetch(&db, RRDI_LAST, 1, 0, 49, &rows, values, 8) == 0 && rows.count == 5, rrdi_db_error(&db));
    for (size_t at = 0; at < 5; at++) check(rrdi_to_double(values[at]) == given[at], "a value");
    rrdi_db_close(&db);
}

/* Runs a command with one more word, and returns whether the fault and a part of the text are right. */
static bool runs(const char *command, const char *word, uint32_t fault, const char *part) {
    static struct rrdi_answer answer;
    static uint8_t output[65536], words[200];
    size_t length = strlen(command);
    memcpy(words, command, length + 1);
    if (word) memcpy(words + length + 1, word, strlen(word));
    memset(output, 0, sizeof output);
    rrdi_run_file("c.rrdi", 6, words, word ? length + 1 + strlen(word) : length, 60, 5000, false, output, sizeof output - 1, &answer);
    const char *text = answer.fault ? (const char *)answer.explanation : (const char *)output;
    if (answer.fault == fault && strstr(text, part)) return true;
    printf("%s %s: fault %u, %.300s\n", command, word ? word : "", answer.fault, text);
    return false;
}

static void in_words(void) {
    check(runs("update", "60:2.5", 0, ""), "an update in words");
    check(runs("update", "70:2,5", RRDI_BAD_WORD, "'2.5'"), "an update with a comma");
    check(runs("info", NULL, 0, "ds[0].min = -1.5"), "info");
    check(runs("info", NULL, 0, "rra[0].xff = 0.25"), "info");
    check(runs("lastupdate", NULL, 0, "60: 2.5"), "lastupdate");
}

#ifdef HAS_RECORDER
int rrd_create_r(const char *, unsigned long, long, int, const char **);
int rrd_update_r(const char *, const char *, int, const char **);
char *rrd_get_error(void);

static void by_librrd(void) {
    const char *definitions[] = {"DS:g:GAUGE:100:-1.5:U", "RRA:LAST:0.25:1:8"}, *samples[] = {"1000000010:1.5e0", "1000000020:-0.75"};
    const char *wrong[] = {"1000000030:1,5"};
    check(rrd_create_r("r.rrd", 10, 1000000000, 2, definitions) == 0, rrd_get_error());
    check(rrd_update_r("r.rrd", NULL, 2, samples) == 0, rrd_get_error());
    check(rrd_update_r("r.rrd", NULL, 1, wrong) != 0, "librrd's update takes a comma");
}
#else
static void by_librrd(void) {
}
#endif

int main(void) {
    char text[20];
    setlocale(LC_ALL, "");
    snprintf(text, sizeof text, "%.1f", 1.5);
    check(!strcmp(text, "1,5"), "the locale has no comma");
    in_numbers();
    in_words();
    by_librrd();
    return 0;
}
