/* SPDX-License-Identifier: MIT OR Apache-2.0 */
/* A library that replaces RRDtool's in tests: a picture prints the text of each PRINT unchanged, so a test can let it
 * print any text. `\:` is a colon, and %n a line feed, as in RRDtool's texts of strftime. */
#include <stdio.h>
#include <stdlib.h>
#include <string.h>

struct info {
    char *key;
    int type; /* 1 a count, 2 a text, 4 bytes */
    union {
        unsigned long count;
        double value;
        char *text;
        int number;
        struct {
            unsigned long size;
            unsigned char *data;
        } bytes;
    } value;
    struct info *next;
};

static struct info *add(struct info ***last, const char *key, int type) {
    struct info *made = calloc(1, sizeof *made);
    made->key = strdup(key);
    made->type = type;
    **last = made;
    *last = &made->next;
    return made;
}

static char *printed(const char *format) {
    char *text = malloc(strlen(format) + 1), *to = text;
    for (const char *from = format; *from != '\0'; from++) {
        if (strncmp(from, "%n", 2) == 0) {
            *to++ = '\n';
            from++;
        } else if (strncmp(from, "\\:", 2) != 0) {
            *to++ = *from;
        }
    }
    *to = '\0';
    return text;
}

struct info *rrd_graph_v(int count, char **words) {
    struct info *first = NULL, **last = &first, *made;
    add(&last, "image_width", 1)->value.count = 3;
    add(&last, "image_height", 1)->value.count = 2;
    for (int at = 1, number = 0; at < count; at++) {
        char key[32];
        if (strncmp(words[at], "PRINT:a:", 8) != 0) continue;
        snprintf(key, sizeof key, "print[%d]", number++);
        add(&last, key, 2)->value.text = printed(words[at] + 8);
    }
    FILE *file = count > 1 && strcmp(words[1], "-") != 0 ? fopen(words[1], "w") : NULL;
    if (file != NULL) {
        fputs("a picture\n", file);
        fclose(file);
    }
    if (count > 1 && strcmp(words[1], "-") == 0) {
        made = add(&last, "image", 4);
        made->value.bytes.data = (unsigned char *)strdup("\nERROR: a picture\nOK\n");
        made->value.bytes.size = strlen((char *)made->value.bytes.data);
    }
    return first;
}

void rrd_info_free(struct info *info) { (void)info; }
char *rrd_get_error(void) { return NULL; }
void rrd_clear_error(void) {}
void rrd_set_error(const char *format, ...) { (void)format; }
void rrd_freemem(void *memory) { free(memory); }
int rrd_fetch_cb_register(void *function) { return function == NULL; }
int rrd_xport(void) { return -1; }
