/* SPDX-License-Identifier: MIT OR Apache-2.0 */
/* Creates a database at the path PATH by rrdi_create_new, when standard input has ended, and prints the number of the
   fault and the error of the system. */
#include <stdio.h>

#include "checks.h"

int main(int count, char **arguments) {
    const char *path = count > 1 ? arguments[1] : "";
    while (getchar() != EOF)
        ;
    rrdi_create_new(path, strlen(path), WORDS(CREATE), 0, 0, true, output, sizeof output, &answer);
    printf("%u %u\n", answer.fault, answer.system_error);
    return 0;
}
