/* What the calls of wq_worker.h do where a caller is at fault or calls wq.h besides: a worker is not started on a seat that it could
 * not execute from or that has one, what wq.h answered wakes it, a flush comes back though another call was in its seat or another
 * thread flushes its barrier (worker_answers [RUNS]), and a thread is joined by another one, where there is one. */
#include "check.h"
#include "wq_worker.h"
#include <dirent.h>
#include <sched.h>

enum { ITEMS = 4, BARRIERS = 2, FIRST_RUN = 0, BEHIND_FLUSH = 1 };

static wq_seat owner, sender, other, vacant, blank;
static wq_worker worker;
static uint32_t ran;

static void count(uint32_t item, void *data) {
    CHECK(item < ITEMS && data == &worker);
    __atomic_add_fetch(&ran, 1, __ATOMIC_SEQ_CST);
}

static void build(void) {
    CHECK(wq_init(&owner) == WQ_OK && wq_init(&sender) == WQ_OK && wq_init(&other) == WQ_OK && wq_init(&vacant) == WQ_OK);
    CHECK(wq_build(&owner, ITEMS, BARRIERS, 2) == WQ_OK);
    CHECK(wq_hand_out(&owner, &sender) == WQ_OK && wq_hand_out(&owner, &other) == WQ_OK);
}

static uint32_t threads(void) {
    uint32_t found = 0;
    DIR *tasks = opendir("/proc/self/task");
    CHECK(tasks);
    while (readdir(tasks)) found++;
    closedir(tasks);
    return found;
}

static void is_refused_of(wq_seat *seat, uint32_t items, uint32_t code) {
    uint32_t before = threads();
    CHECK(wq_worker_start(&worker, seat, items, count, &worker) == code);
    CHECK(threads() <= before); /* one that was joined may still be told of */
}

static void is_refused(wq_seat *seat, uint32_t code) { is_refused_of(seat, ITEMS, code); }

static void release_all(void) {
    CHECK(wq_release(&owner) == WQ_OK && wq_release(&sender) == WQ_OK && wq_release(&other) == WQ_OK);
}

static void starting(void) {
    build();
    is_refused(&vacant, WQ_NOT_OWNER);
    is_refused(&sender, WQ_NOT_OWNER);
    is_refused(&blank, WQ_NO_SEAT);
    is_refused_of(&owner, 0, WQ_NO_ITEM);
    is_refused_of(&owner, ITEMS - 1, WQ_NO_ITEM);
    is_refused_of(&owner, ITEMS + 1, WQ_NO_ITEM);
    owner.held = 1; /* as while a call of another thread is in it */
    is_refused(&owner, WQ_SEAT_BUSY);
    owner.held = 0;
    CHECK(wq_queue(&sender, 0) != WQ_PENDING && wq_queue(&sender, 1) == WQ_QUEUED && wq_take(&owner, WQ_NO_NUMBER) == WQ_OK);
    is_refused(&owner, WQ_SOME_WAIT);
    CHECK(wq_begin(&owner, WQ_NO_NUMBER) == WQ_OK);
    is_refused(&owner, WQ_SOME_WAIT);
    CHECK(wq_end(&owner) == WQ_OK && wq_begin(&owner, WQ_NO_NUMBER) == WQ_OK);
    is_refused(&owner, WQ_IS_RUNNING);
    CHECK(wq_end(&owner) == WQ_OK && wq_drain(&owner, WQ_NO_NUMBER) == WQ_OK);
    is_refused(&owner, WQ_IS_DRAINING);
    CHECK(wq_resume(&owner) == WQ_OK && wq_close(&owner, WQ_NO_NUMBER) == WQ_OK);
    is_refused(&owner, WQ_IS_CLOSED);
    release_all();
}

/* A worker that starts with something queued, and one that starts on an owner that rests. */
static void started(void) {
    for (int rests = 0; rests < 2; rests++) {
        build();
        ran = 0;
        CHECK(wq_take(&owner, WQ_NO_NUMBER) == WQ_OK && (!rests || wq_rest(&owner) == WQ_YES));
        CHECK(rests || wq_is_queued(wq_queue(&sender, 2)));
        CHECK(wq_worker_start(&worker, &owner, ITEMS, count, &worker) == WQ_OK);
        CHECK(wq_is_queued(wq_worker_queue(&worker, &other, 3)) && wq_is_queued(wq_worker_flush(&worker, &sender, 0)));
        CHECK(wq_load(&ran) == (rests ? 1 : 2));
        wq_worker_finish(&worker);
        release_all();
    }
}

/* A second worker on a seat, in the first one's memory or in other, changes nothing, and the seat is free again behind the first; nor does
 * one on another seat in the first one's memory. The one that was not started drains, resumes and ends nothing, and waits for nothing;
 * nor does the first one once it has ended. */
static void second(void) {
    static wq_worker another;
    static wq_seat elsewhere;
    CHECK(wq_init(&elsewhere) == WQ_OK && wq_build(&elsewhere, ITEMS, BARRIERS, 1) == WQ_OK);
    for (int turn = 0; turn < 2; turn++) {
        build();
        ran = 0;
        CHECK(wq_worker_start(&worker, &owner, ITEMS, count, &worker) == WQ_OK);
        uint32_t before = threads();
        is_refused(&owner, WQ_IN_USE);
        is_refused(&elsewhere, WQ_IN_USE);
        CHECK(wq_worker_start(&another, &owner, ITEMS, count, &another) == WQ_IN_USE && threads() <= before);
        wq_worker_drain(&another);
        wq_worker_resume(&another);
        CHECK(wq_worker_stop(&another) == WQ_NO_SEAT);
        CHECK(wq_is_queued(wq_worker_queue(&worker, &other, 3)) && wq_is_queued(wq_worker_flush(&worker, &sender, 0)));
        wq_worker_finish(&worker);
        wq_worker_drain(&worker);
        wq_worker_resume(&worker);
        CHECK(wq_load(&ran) == 1);
        is_refused(&owner, WQ_IS_CLOSED);
        release_all();
    }
    CHECK(wq_close(&elsewhere, WQ_NO_NUMBER) == WQ_OK && wq_release(&elsewhere) == WQ_OK);
}

/* Each comes while the worker rests or soon does, and is executed. */
static void waking(void) {
    build();
    CHECK(wq_worker_start(&worker, &owner, ITEMS, count, &worker) == WQ_OK);
    for (uint32_t round = 0; round < 50; round++) {
        for (uint32_t item = 0, before = wq_load(&ran); item < 2; item++) {
            CHECK(wq_is_queued(wq_worker_wake(&worker, wq_queue_tries(&sender, item, 1000))));
            while (wq_load(&ran) != before + item + 1) sched_yield();
        }
        CHECK(wq_is_queued(wq_worker_wake(&worker, wq_flush_begin(&sender, 1))));
        while (wq_flush_done(&sender, 1) != WQ_YES) sched_yield();
        uint32_t ended = wq_load(&worker.flushes);
        CHECK(wq_is_queued(wq_worker_wake(&worker, wq_request_stop(&sender))));
        while (wq_load(&worker.flushes) == ended) sched_yield();
    }
    uint32_t bell = wq_load(&worker.bell);
    CHECK(wq_worker_wake(&worker, wq_queue_tries(&sender, 0, 0)) == WQ_NO_TRIES && wq_worker_wake(&worker, WQ_CLOSED) == WQ_CLOSED);
    CHECK(wq_load(&worker.bell) == bell);
    wq_worker_finish(&worker);
    release_all();
}

/* The first comes into the sender's seat, as a call of another thread does, once the flush has queued its barrier, and queues the
 * second behind that. The barrier ends meanwhile, and the second leaves the seat. */
static void intrude(uint32_t item, void *data) {
    const struct timespec while_busy = {0, 20 * 1000 * 1000};
    CHECK(data == &worker);
    if (item == FIRST_RUN) {
        while (wq_flush_done(&other, 0) != WQ_NO) sched_yield();
        while (__atomic_exchange_n(&sender.held, 1, __ATOMIC_SEQ_CST)) sched_yield();
        CHECK(wq_is_queued(wq_queue(&other, BEHIND_FLUSH)));
    } else {
        nanosleep(&while_busy, NULL);
        __atomic_store_n(&sender.held, 0, __ATOMIC_SEQ_CST);
    }
}

/* Gives the sender's seat up once its flush has queued its barrier. */
static void give_up(uint32_t item, void *data) {
    CHECK(item == FIRST_RUN && data == &worker);
    while (wq_flush_done(&other, 0) != WQ_NO) sched_yield();
    while (wq_release(&sender) == WQ_SEAT_BUSY) sched_yield();
}

static void giving_up(void) {
    build();
    CHECK(wq_worker_start(&worker, &owner, ITEMS, give_up, &worker) == WQ_OK);
    CHECK(wq_is_queued(wq_worker_queue(&worker, &other, FIRST_RUN)));
    CHECK(wq_worker_flush(&worker, &sender, 0) == WQ_NOT_SENDER);
    CHECK(wq_worker_stop(&worker) == WQ_OK && wq_release(&other) == WQ_OK);
}

static void flushing(void) {
    build();
    CHECK(wq_worker_start(&worker, &owner, ITEMS, intrude, &worker) == WQ_OK);
    CHECK(wq_is_queued(wq_worker_queue(&worker, &other, FIRST_RUN)));
    CHECK(wq_is_queued(wq_worker_flush(&worker, &sender, 0)));
    CHECK(wq_worker_flush(&worker, &sender, BARRIERS) == WQ_NO_BARRIER && wq_worker_flush(&worker, &vacant, 0) == WQ_NOT_SENDER);
    CHECK(wq_worker_stop(&worker) == WQ_OK && wq_worker_flush(&worker, &sender, 0) == WQ_CLOSED);
    CHECK(wq_release(&sender) == WQ_OK && wq_release(&other) == WQ_OK);
}

/* Leaves the owner's seat as a call of another thread does that is still in it. */
static void occupy(uint32_t item, void *data) {
    CHECK(item == FIRST_RUN && data == &worker);
    while (__atomic_exchange_n(&owner.held, 1, __ATOMIC_SEQ_CST)) sched_yield();
    __atomic_add_fetch(&ran, 1, __ATOMIC_SEQ_CST);
}

/* The worker ends what runs once that call has gone. A finish that comes twice, the second within a stop, joins once. */
static void occupied(void) {
    const struct timespec while_busy = {0, 20 * 1000 * 1000};
    build();
    ran = 0;
    CHECK(wq_worker_start(&worker, &owner, ITEMS, occupy, &worker) == WQ_OK);
    CHECK(wq_is_queued(wq_worker_queue(&worker, &other, FIRST_RUN)));
    while (wq_load(&ran) == 0) sched_yield();
    nanosleep(&while_busy, NULL);
    __atomic_store_n(&owner.held, 0, __ATOMIC_SEQ_CST);
    CHECK(wq_is_queued(wq_worker_flush(&worker, &sender, 0)));
    wq_worker_finish(&worker);
    CHECK(wq_is_done(&owner) == WQ_YES && wq_worker_stop(&worker) == WQ_OK);
    CHECK(wq_release(&sender) == WQ_OK && wq_release(&other) == WQ_OK);
}

/* When another thread drains a worker whose function stops it. */
enum { NEVER, BEHIND_THE_STOP, BEFORE_THE_STOP, TURNS };
static uint32_t drains;
/* What the worker's bell counts once the drain behind the stop has asked; 0 until that is known, when the stop has rung it already. */
static uint32_t asked;

/* In the worker's own thread a stop asks for the end and joins nothing. It lets another thread's call come before the end, or waits until
 * that thread's drain has asked. */
static void stop_inside(uint32_t item, void *data) {
    const struct timespec while_called = {0, 20 * 1000 * 1000};
    CHECK(data == &worker);
    if (item == FIRST_RUN) {
        CHECK(wq_is_queued(wq_worker_queue(&worker, &sender, BEHIND_FLUSH)));
        if (drains != BEFORE_THE_STOP) CHECK(wq_worker_stop(&worker) == WQ_NOT_DONE);
        __atomic_add_fetch(&ran, 1, __ATOMIC_SEQ_CST);
        while (drains == BEHIND_THE_STOP && wq_load(&worker.bell) != wq_load(&asked)) sched_yield();
        while (drains == BEFORE_THE_STOP && wq_load(&worker.wanted) != WQ_DRAINED) sched_yield();
        nanosleep(&while_called, NULL);
        if (drains == BEFORE_THE_STOP) CHECK(wq_worker_stop(&worker) == WQ_NOT_DONE);
    }
    __atomic_add_fetch(&ran, 1, __ATOMIC_SEQ_CST);
}

/* The other thread stops the worker, too. In two turns it drains and resumes it before: behind the function's stop, which that takes
 * nothing back of, and before it, so that the stop ends its wait. */
static void stopped_inside(void) {
    for (drains = NEVER; drains < TURNS; drains++) {
        build();
        ran = asked = 0;
        CHECK(wq_worker_start(&worker, &owner, ITEMS, stop_inside, &worker) == WQ_OK);
        CHECK(wq_is_queued(wq_worker_queue(&worker, &other, FIRST_RUN)));
        while (wq_load(&ran) == 0) sched_yield();
        if (drains != NEVER) {
            __atomic_store_n(&asked, wq_load(&worker.bell) + 1, __ATOMIC_SEQ_CST);
            wq_worker_drain(&worker);
            wq_worker_resume(&worker);
            CHECK(wq_worker_queue(&worker, &other, ITEMS - 1) == WQ_CLOSED);
        }
        CHECK(wq_worker_stop(&worker) == WQ_OK && ran == 3);
        CHECK(wq_release(&sender) == WQ_OK && wq_release(&other) == WQ_OK);
    }
}

static void shut(uint32_t item, void *data) {
    CHECK(data == &worker);
    if (item == ITEMS - 1) return;
    CHECK((item == FIRST_RUN ? wq_close(&owner, WQ_NO_NUMBER) : wq_drain(&owner, WQ_NO_NUMBER)) == WQ_OK);
}

/* Where its function closes or drains the queue the worker sleeps until it is stopped, and takes no processor meanwhile. Such a drain
 * is not ended by a resume alone, but by a drain of the worker and a resume. */
static void shut_inside(void) {
    const struct timespec idle = {0, 200 * 1000 * 1000};
    for (uint32_t item = FIRST_RUN; item <= BEHIND_FLUSH; item++) {
        uint32_t shut_answer = item == FIRST_RUN ? WQ_CLOSED : WQ_DRAINING;
        build();
        CHECK(wq_worker_start(&worker, &owner, ITEMS, shut, &worker) == WQ_OK);
        CHECK(wq_is_queued(wq_worker_queue(&worker, &other, item)));
        while (wq_is_queued(wq_worker_queue(&worker, &sender, ITEMS - 1)) || wq_is_pending(&other, item) == WQ_YES) sched_yield();
        clock_t before = clock();
        nanosleep(&idle, NULL);
        CHECK(clock() - before < CLOCKS_PER_SEC / 10);
        while (wq_worker_queue(&worker, &other, ITEMS - 1) != shut_answer) sched_yield();
        wq_worker_resume(&worker);
        CHECK(wq_worker_queue(&worker, &other, ITEMS - 1) == shut_answer);
        wq_worker_drain(&worker);
        wq_worker_resume(&worker);
        uint32_t code = wq_worker_queue(&worker, &other, ITEMS - 1);
        CHECK(item == FIRST_RUN ? code == WQ_CLOSED : wq_is_queued(code));
        CHECK(wq_worker_stop(&worker) == WQ_OK && wq_release(&sender) == WQ_OK && wq_release(&other) == WQ_OK);
    }
}

static void *flush_until_closed(void *seat) {
    while (wq_worker_flush(&worker, (wq_seat *)seat, 0) != WQ_CLOSED) { }
    return NULL;
}

/* Threads that flush one barrier come back, though one may see its bit set while another holds it and is turned back. */
static void sharing(int runs) {
    enum { SHARE = 3 };
    static wq_seat seats[SHARE];
    const struct timespec some = {0, 200 * 1000};
    for (int run = 0; run < runs; run++) {
        pthread_t threads[SHARE];
        CHECK(wq_init(&owner) == WQ_OK && wq_build(&owner, ITEMS, BARRIERS, SHARE) == WQ_OK);
        for (int i = 0; i < SHARE; i++) CHECK(wq_init(&seats[i]) == WQ_OK && wq_hand_out(&owner, &seats[i]) == WQ_OK);
        CHECK(wq_worker_start(&worker, &owner, ITEMS, count, &worker) == WQ_OK);
        for (int i = 0; i < SHARE; i++) CHECK(pthread_create(&threads[i], NULL, flush_until_closed, &seats[i]) == 0);
        nanosleep(&some, NULL);
        CHECK(wq_worker_stop(&worker) == WQ_OK);
        for (int i = 0; i < SHARE; i++) CHECK(pthread_join(threads[i], NULL) == 0 && wq_release(&seats[i]) == WQ_OK);
    }
}

/* A stop behind a start that was refused gives nothing up, also in memory that had a worker before. */
static void refused_again(void) {
    build();
    CHECK(wq_worker_start(&worker, &owner, ITEMS, count, &worker) == WQ_OK && wq_worker_stop(&worker) == WQ_OK);
    CHECK(wq_worker_stop(&worker) == WQ_NO_SEAT && wq_release(&sender) == WQ_OK && wq_release(&other) == WQ_OK);
    build();
    is_refused_of(&owner, ITEMS + 1, WQ_NO_ITEM);
    CHECK(wq_worker_stop(&worker) == WQ_NO_SEAT);
    CHECK(wq_queue(&sender, 0) != WQ_NO_SEAT && wq_close(&owner, WQ_NO_NUMBER) == WQ_OK && wq_begin(&owner, WQ_NO_NUMBER) == WQ_OK);
    CHECK(wq_end(&owner) == WQ_OK);
    release_all();
}

int main(int argc, char **argv) {
    starting();
    second();
    started();
    waking();
    flushing();
    giving_up();
    occupied();
    stopped_inside();
    shut_inside();
    sharing(argc > 1 ? atoi(argv[1]) : 2000);
    refused_again();
    puts("worker_answers: no start that gets nowhere, and no sleep without end");
    return 0;
}
