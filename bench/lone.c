// One thread that sleeps on a futex, and one that wakes it and waits until it has run, to measure `bench_queue lone` beside.
// usage: lone ROUNDS MICROS; prints `median M nanos, 95th P nanos`.
#include <inttypes.h>
#include <linux/futex.h>
#include <pthread.h>
#include <stdatomic.h>
#include <stdio.h>
#include <stdlib.h>
#include <sys/syscall.h>
#include <time.h>
#include <unistd.h>

static _Atomic uint32_t asked; // how many rounds were asked for: the word that the sleeper sleeps on
static _Atomic uint64_t ran;   // how many it ran

static uint64_t rounds;

static int64_t now(void) {
    struct timespec time;
    clock_gettime(CLOCK_MONOTONIC, &time);
    return (int64_t)time.tv_sec * 1000000000 + time.tv_nsec;
}

// Sleeps until a round is asked for that it has not run, and runs it.
static void *run(void *nothing) {
    for (uint64_t done = 0; done < rounds; done++) {
        while (atomic_load(&asked) == (uint32_t)done) {
            syscall(SYS_futex, &asked, FUTEX_WAIT_PRIVATE, (uint32_t)done, NULL, NULL, 0);
        }
        atomic_store(&ran, done + 1);
    }
    return nothing;
}

// Passes so much time, without the system's help.
static void pass(int64_t nanos) {
    int64_t start = now();
    while (now() - start < nanos) {
        __builtin_ia32_pause();
    }
}

static int64_t ring(uint64_t runs) {
    int64_t start = now();
    atomic_store(&asked, (uint32_t)runs);
    syscall(SYS_futex, &asked, FUTEX_WAKE_PRIVATE, 1, NULL, NULL, 0);
    while (atomic_load(&ran) < runs) {
        __builtin_ia32_pause();
    }
    return now() - start;
}

static int order(const void *one, const void *other) {
    int64_t a = *(const int64_t *)one, b = *(const int64_t *)other;
    return (a > b) - (a < b);
}

int main(int argc, char **argv) {
    if (argc != 3) {
        fprintf(stderr, "usage: lone ROUNDS MICROS\n");
        return 2;
    }
    rounds = strtoull(argv[1], NULL, 10);
    int64_t gap = strtoll(argv[2], NULL, 10) * 1000;
    int64_t *times = calloc(rounds, sizeof *times);
    pthread_t thread;
    if (rounds == 0 || times == NULL || pthread_create(&thread, NULL, run, NULL) != 0) {
        return 3;
    }
    for (uint64_t round = 0; round < rounds; round++) {
        pass(gap);
        times[round] = ring(round + 1);
    }
    pthread_join(thread, NULL);
    qsort(times, rounds, sizeof *times, order);
    printf("median %" PRId64 " nanos, 95th %" PRId64 " nanos\n", times[rounds / 2], times[rounds * 95 / 100]);
    free(times);
    return 0;
}
