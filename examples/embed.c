/* SPDX-License-Identifier: MIT OR Apache-2.0 */
/* Keeps temperatures in a round-robin database, by commands in words and by lines of a batch. Most programs need less: see
 * daemon.c.
 *
 *     cc -o embed embed.c $(pkg-config --cflags --libs rrdi)
 */
#include <rrdi.h>
#include <stdio.h>
#include <string.h>
#include <time.h>

#define FILE_NAME "temp.rrdi"

static uint8_t output[65536];
static uint64_t refused_lines[16];
static struct rrdi_answer answer;

/* Prints the output, or the fault, and what was wrong. Of a batch the explanation is lines. */
static void show(void) {
    if (answer.fault)
        printf("fault %u: ", answer.fault);
    fwrite(output, 1, answer.output_length, stdout);
    if (answer.fault)
        putchar('\n');
    printf("%.*s", (int)answer.explanation_length, (const char *)answer.explanation);
    if (answer.fault && answer.explanation_length)
        putchar('\n');
}

/* Runs one command. A zero byte separates its words. */
static void run(const char *words, size_t length) {
    rrdi_run_file(FILE_NAME, strlen(FILE_NAME), (const uint8_t *)words, length, (uint64_t)time(NULL), 5000, false, output,
                  sizeof output, &answer);
    show();
}
#define RUN(words) run(words, sizeof(words) - 1)

/* Runs lines, and prints the numbers of the refused lines. */
static void batch(const char *lines) {
    rrdi_batch_file(FILE_NAME, strlen(FILE_NAME), (const uint8_t *)lines, strlen(lines), (uint64_t)time(NULL), 5000, false,
                    output, sizeof output, refused_lines, 16, &answer);
    show();
    for (uint64_t at = 0; at < answer.refused && at < 16; at++)
        printf("line %llu was refused\n", (unsigned long long)refused_lines[at]);
}

int main(void) {
    RUN("last");
    RUN("create\0--step\000300\0--start\0001700000000\0DS:temp:GAUGE:600:U:U\0RRA:AVERAGE:0.5:1:12");
    RUN("update\0001700000300:20.5\0001700000600:21");
    RUN("update\0001700000600:22");
    batch("update 1700000900:21.5\nupdate 1700000800:19\nlast\n");
    RUN("fetch\0AVERAGE\0-s\0001700000300\0-e\0001700000900");
    return 0;
}
