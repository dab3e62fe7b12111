/* What docs/C.md says of signals and cancellation in wq_worker.h: the worker's thread has the signal mask of who started it, a signal
 * ends no sleep, and the join is the one cancellation point, after which another thread stops the worker. */
#define _POSIX_C_SOURCE 200809L /* for pthread_sigmask and sigaction, which wq_worker.h does without */
#include "check.h"
#include "wq_worker.h"
#include <signal.h>

enum { ITEMS = 4, LOOKS = 0, WAITS = 1, SLEEPS = 2 };

static wq_seat owner, sender;
static wq_worker worker;
static sigset_t seen;         /* the mask of the worker's thread */
static uint32_t came, opened; /* signals that came to a handler; whether an item that waits may end */
static uint32_t ran;

static void count(int number) {
    CHECK(number == SIGUSR1);
    __atomic_add_fetch(&came, 1, __ATOMIC_SEQ_CST);
}

static void run(uint32_t item, void *data) {
    const struct timespec some = {0, 20 * 1000 * 1000};
    CHECK(data == &worker);
    if (item == LOOKS) CHECK(pthread_sigmask(SIG_BLOCK, NULL, &seen) == 0);
    while (item == WAITS && !wq_load(&opened)) sched_yield();
    if (item == SLEEPS) nanosleep(&some, NULL);
    __atomic_add_fetch(&ran, 1, __ATOMIC_SEQ_CST);
}

static void start(void) {
    ran = came = opened = 0;
    CHECK(wq_init(&owner) == WQ_OK && wq_init(&sender) == WQ_OK);
    CHECK(wq_build(&owner, ITEMS, 1, 1) == WQ_OK && wq_hand_out(&owner, &sender) == WQ_OK);
    CHECK(wq_worker_start(&worker, &owner, ITEMS, run, &worker) == WQ_OK);
}

static void stop(void) { CHECK(wq_worker_stop(&worker) == WQ_OK && wq_release(&sender) == WQ_OK); }

static void is_of_all_or_none(const sigset_t *mask, int blocks) {
    for (int number = 1; number < 32; number++)
        CHECK(sigismember(mask, number) == (blocks && number != SIGKILL && number != SIGSTOP));
}

/* Where all signals are blocked that can be, or none is, so it is in the worker's thread, and behind that in its starter's. */
static void masks(int blocks) {
    sigset_t all, after;
    CHECK(sigfillset(&all) == 0 && pthread_sigmask(blocks ? SIG_BLOCK : SIG_UNBLOCK, &all, NULL) == 0);
    start();
    CHECK(wq_is_queued(wq_worker_queue(&worker, &sender, LOOKS)) && wq_is_queued(wq_worker_flush(&worker, &sender, 0)));
    CHECK(pthread_sigmask(SIG_UNBLOCK, &all, &after) == 0);
    is_of_all_or_none(&seen, blocks);
    is_of_all_or_none(&after, blocks);
    stop();
}

/* Each call that sleeps, behind an item that runs until it is let end. */
static void flush(void) { CHECK(wq_is_queued(wq_worker_flush(&worker, &sender, 0))); }
static void drain(void) { wq_worker_drain(&worker); }
static void finish(void) { wq_worker_finish(&worker); }

struct sleeper {
    void (*call)(void);
    uint32_t ended;
};

static void *sleep_in(void *given) {
    struct sleeper *sleeper = (struct sleeper *)given;
    sleeper->call();
    __atomic_store_n(&sleeper->ended, 1, __ATOMIC_SEQ_CST);
    return NULL;
}

static void interrupt(pthread_t thread) {
    uint32_t before = wq_load(&came);
    CHECK(pthread_kill(thread, SIGUSR1) == 0);
    while (wq_load(&came) == before) sched_yield();
}

/* Signals whose handler restarts nothing come to the thread that sleeps, and to the worker's. */
static void interrupted(void (*call)(void)) {
    const struct timespec some = {0, 1000 * 1000};
    struct sleeper sleeper = {call, 0};
    pthread_t thread;
    start();
    CHECK(wq_is_queued(wq_worker_queue(&worker, &sender, WAITS)));
    CHECK(pthread_create(&thread, NULL, sleep_in, &sleeper) == 0);
    for (int turn = 0; turn < 20; turn++) {
        nanosleep(&some, NULL); /* until it sleeps */
        interrupt(thread);
        interrupt(worker.thread);
        nanosleep(&some, NULL);
        CHECK(!wq_load(&sleeper.ended) && !wq_load(&ran));
    }
    __atomic_store_n(&opened, 1, __ATOMIC_SEQ_CST);
    CHECK(pthread_join(thread, NULL) == 0 && sleeper.ended && ran == 1);
    stop();
}

/* A worker that sleeps executes nothing for a signal, and afterwards what is queued. */
static void interrupted_at_rest(void) {
    start();
    for (uint32_t turn = 0; turn < 20; turn++) {
        interrupt(worker.thread);
        CHECK(wq_load(&ran) == turn && wq_is_queued(wq_worker_queue(&worker, &sender, ITEMS - 1)));
        CHECK(wq_is_queued(wq_worker_flush(&worker, &sender, 0)) && wq_load(&ran) == turn + 1);
    }
    stop();
}

/* How many of its calls a thread has made that is cancelled before the first one. It ends in the join of the last, as the item that
 * it queued before that runs until then. */
enum { BEFORE_THE_JOIN = 4 };
static uint32_t calls;

static void *cancelled(void *given) {
    CHECK(pthread_cancel(pthread_self()) == 0);
    for (; calls < BEFORE_THE_JOIN - 1; calls++) {
        CHECK(wq_is_queued(wq_worker_queue(&worker, &sender, SLEEPS)) && wq_is_queued(wq_worker_flush(&worker, &sender, 0)));
        CHECK(wq_is_queued(wq_worker_queue(&worker, &sender, SLEEPS)));
        wq_worker_drain(&worker);
        wq_worker_resume(&worker);
    }
    CHECK(wq_is_queued(wq_worker_queue(&worker, &sender, WAITS)));
    calls++;
    wq_worker_finish(&worker);
    calls++;
    return given;
}

static void cancelling(void) {
    pthread_t thread;
    void *left = NULL;
    start();
    CHECK(pthread_create(&thread, NULL, cancelled, NULL) == 0 && pthread_join(thread, &left) == 0);
    CHECK(left == PTHREAD_CANCELED && calls == BEFORE_THE_JOIN && wq_load(&ran) == 6);
    __atomic_store_n(&opened, 1, __ATOMIC_SEQ_CST);
    wq_worker_finish(&worker);
    CHECK(wq_is_done(&owner) == WQ_YES && wq_load(&ran) == 7);
    stop();
}

int main(void) {
    struct sigaction counted;
    counted.sa_handler = count;
    counted.sa_flags = 0; /* no SA_RESTART */
    CHECK(sigemptyset(&counted.sa_mask) == 0);
    masks(0);
    masks(1);
    CHECK(sigaction(SIGUSR1, &counted, NULL) == 0);
    interrupted(flush);
    interrupted(drain);
    interrupted(finish);
    interrupted_at_rest();
    cancelling();
    puts("signals: the worker's mask is its starter's, no signal ends a sleep, and the join alone is cancelled");
    return 0;
}
