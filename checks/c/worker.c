/* A worker of wq_worker.h: four threads queue, flush and are drained while it executes. What was flushed has run, nothing runs while
 * the queue is drained, and all that was accepted has run once it has stopped. */
#include "check.h"
#include "wq_worker.h"
#include <sched.h>

enum { THREADS = 4, OWN = 16, ROUNDS = 500 };

static wq_seat owner, senders[THREADS];
static wq_worker worker;
static uint64_t ran[THREADS * OWN], queued[THREADS * OWN];
static uint32_t drained;

static void run(uint32_t item, void *data) {
    CHECK(data == &worker && !wq_load(&drained));
    __atomic_add_fetch(&ran[item], 1, __ATOMIC_SEQ_CST);
}

static void *feed(void *given) {
    wq_seat *sender = given;
    uint32_t number = (uint32_t)(sender - senders), code;
    for (uint64_t round = 0; round < ROUNDS; round++) {
        for (uint32_t item = number * OWN; item < (number + 1) * OWN; item++) {
            while ((code = wq_worker_queue(&worker, sender, item)) == WQ_DRAINING || code == WQ_PENDING) sched_yield();
            CHECK(wq_is_queued(code));
            queued[item]++;
        }
        while ((code = wq_worker_flush(&worker, sender, number)) == WQ_DRAINING) sched_yield();
        CHECK(wq_is_queued(code));
        for (uint32_t item = number * OWN; item < (number + 1) * OWN; item++)
            CHECK(__atomic_load_n(&ran[item], __ATOMIC_SEQ_CST) == queued[item]);
    }
    return NULL;
}

int main(void) {
    pthread_t threads[THREADS];
    CHECK(wq_init(&owner) == WQ_OK && wq_build(&owner, THREADS * OWN, THREADS, THREADS) == WQ_OK);
    for (int t = 0; t < THREADS; t++) CHECK(wq_init(&senders[t]) == WQ_OK && wq_hand_out(&owner, &senders[t]) == WQ_OK);
    CHECK(wq_worker_start(&worker, &owner, THREADS * OWN, run, &worker) == WQ_OK);
    for (int t = 0; t < THREADS; t++) CHECK(pthread_create(&threads[t], NULL, feed, &senders[t]) == 0);
    for (int i = 0; i < 50; i++) {
        wq_worker_drain(&worker);
        __atomic_store_n(&drained, 1, __ATOMIC_SEQ_CST);
        for (int turn = 0; turn < 20; turn++) sched_yield();
        __atomic_store_n(&drained, 0, __ATOMIC_SEQ_CST);
        wq_worker_resume(&worker);
        for (int turn = 0; turn < 20; turn++) sched_yield();
    }
    for (int t = 0; t < THREADS; t++) CHECK(pthread_join(threads[t], NULL) == 0);
    CHECK(wq_is_queued(wq_worker_queue(&worker, &senders[0], 0)));
    queued[0]++;
    wq_worker_finish(&worker);
    wq_counts sums = {0};
    CHECK(wq_is_done(&owner) == WQ_YES && wq_add_counts(&owner, &sums) == WQ_OK && wq_release(&owner) == WQ_OK);
    for (int t = 0; t < THREADS; t++) CHECK(wq_add_counts(&senders[t], &sums) == WQ_OK);
    CHECK(wq_balances(&sums) && sums.executed >= THREADS * OWN * ROUNDS);
    for (int item = 0; item < THREADS * OWN; item++) CHECK(ran[item] == queued[item]);
    CHECK(wq_queue(&senders[0], 0) == WQ_CLOSED);
    for (int t = 0; t < THREADS; t++) CHECK(wq_release(&senders[t]) == WQ_OK);
    puts("worker: flushed, drained and stopped");
    return 0;
}
