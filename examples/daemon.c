/* SPDX-License-Identifier: MIT OR Apache-2.0 */
/* Records the load of this machine once a minute:
 *
 *     cc -o daemon daemon.c $(pkg-config --cflags --libs rrdi)
 */
#include <rrdi.h>
#include <signal.h>
#include <stdio.h>
#include <stdlib.h>
#include <time.h>
#include <unistd.h>

static volatile sig_atomic_t is_stopped;
static struct rrdi_db db;

static void stop(int signal_number) {
    is_stopped = signal_number;
}

int main(void) {
    double load;
    if (rrdi_db_open(&db, "load.rrdi", "--step 60 DS:load:GAUGE:180:0:U RRA:AVERAGE:0.5:1:1440", 0)) {
        fprintf(stderr, "%s\n", rrdi_db_error(&db));
        return 1;
    }
    signal(SIGTERM, stop);
    for (; !is_stopped; sleep(60)) {
        struct rrdi_value value = getloadavg(&load, 1) == 1 ? rrdi_double(load) : (struct rrdi_value){0};
        if (rrdi_db_update(&db, (uint64_t)time(NULL), &value, 1))
            fprintf(stderr, "%s\n", rrdi_db_error(&db));
    }
    rrdi_db_close(&db);
    return 0;
}
