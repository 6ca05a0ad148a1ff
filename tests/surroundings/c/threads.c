/* SPDX-License-Identifier: MIT OR Apache-2.0 */
/* Threads that change databases, in a process that forks while no call runs: no call is refused, and no child keeps a lock after
 * its parent has closed a file. The arguments are the numbers of threads and of forks. The program prints how many changes each
 * thread has made. */
#define _GNU_SOURCE
#include <pthread.h>
#include <rrdi.h>
#include <signal.h>
#include <stdio.h>
#include <stdlib.h>
#include <sys/file.h>
#include <sys/wait.h>
#include <unistd.h>

enum { MOST = 16 };

static pthread_rwlock_t calls = PTHREAD_RWLOCK_INITIALIZER; /* who calls holds it for readers, and who forks for itself */
static pthread_barrier_t begun;
static volatile int is_over;

struct worker {
    pthread_t thread;
    char path[20];
    struct rrdi_db db;
    uint64_t count;
};

static void fail(const char *what, const char *why) {
    fprintf(stderr, "%s: %s\n", what, why);
    exit(1);
}

static void *work(void *given) {
    struct worker *worker = given;
    const char *definition = "--step 1 --start 0 --journal 1 DS:g:GAUGE:9:U:U RRA:LAST:0.5:1:20";
    if (rrdi_db_open(&worker->db, worker->path, definition, 0)) fail("open", rrdi_db_error(&worker->db));
    pthread_barrier_wait(&begun);
    while (!is_over || worker->count < 150) {
        struct rrdi_value value = rrdi_count(worker->count + 1);
        pthread_rwlock_rdlock(&calls);
        if (rrdi_db_update(&worker->db, worker->count + 1, &value, 1)) fail("update", rrdi_db_error(&worker->db));
        worker->count++;
        if (worker->count % 50 == 0) { /* now and then the file is closed, and opened again */
            rrdi_db_close(&worker->db);
            if (rrdi_db_open(&worker->db, worker->path, NULL, 0)) fail("open again", rrdi_db_error(&worker->db));
        }
        pthread_rwlock_unlock(&calls);
        usleep(200);
    }
    return NULL;
}

int main(int count, char **words) {
    static struct worker workers[MOST];
    static pid_t children[1000];
    int threads = atoi(words[1]), forks = atoi(words[2]);
    if (count != 3 || threads > MOST || forks > 1000) return 2;
    pthread_rwlockattr_t kind;
    pthread_rwlockattr_init(&kind);
    pthread_rwlockattr_setkind_np(&kind, PTHREAD_RWLOCK_PREFER_WRITER_NONRECURSIVE_NP);
    pthread_rwlock_init(&calls, &kind);
    pthread_barrier_init(&begun, NULL, (unsigned)threads + 1);
    for (int at = 0; at < threads; at++) {
        snprintf(workers[at].path, sizeof workers[at].path, "t%d.rrdi", at);
        if (pthread_create(&workers[at].thread, NULL, work, &workers[at])) return 2;
    }
    pthread_barrier_wait(&begun);
    for (int at = 0; at < forks;) {
        uint64_t changes = 0;
        pthread_rwlock_wrlock(&calls);
        for (int number = 0; number < threads; number++) changes += workers[number].count;
        if (changes >= 10 * (uint64_t)at) { /* there were changes since the last fork */
            children[at] = fork();
            if (children[at] == 0) { /* a child calls nothing, and lives on with what it has open */
                for (;;) pause();
            }
            if (children[at++] < 0) fail("fork", "failed");
        }
        pthread_rwlock_unlock(&calls);
        usleep(500);
    }
    is_over = 1;
    for (int at = 0; at < threads; at++) pthread_join(workers[at].thread, NULL);
    for (int at = 0; at < threads; at++) {
        rrdi_db_close(&workers[at].db);
        FILE *file = fopen(workers[at].path, "r");
        if (!file || flock(fileno(file), LOCK_EX | LOCK_NB)) fail(workers[at].path, "a child keeps the lock of a file that was closed");
        fclose(file);
        printf("%llu\n", (unsigned long long)workers[at].count);
    }
    for (int at = 0; at < forks; at++) kill(children[at], SIGKILL);
    while (wait(NULL) > 0) continue;
    return 0;
}
