/* A thread that owns a queue and executes it by a function: a convenience over the proved calls of wq.h, and itself not proved.
 * Linux alone (futex) and POSIX threads; link with -pthread. No call is for a signal handler.
 *
 * Build a queue and hand out its senders first, then start one worker on the owner's seat, and the senders' threads after it. The
 * seat is the worker's until wq_worker_finish or wq_worker_stop has returned: no other thread makes a call in it, and a worker that
 * finds one there tries again until it has gone. A sender's thread calls wq_worker_queue and wq_worker_flush, or hands what a call
 * of wq.h answered to wq_worker_wake. One thread at a time calls wq_worker_drain, wq_worker_resume, wq_worker_finish and
 * wq_worker_stop, and beside it the worker's own function may call the last two. That function returns: it neither ends its thread
 * nor lets an exception out. It calls none of the first two and no wq_worker_flush, nor waits for a thread that is in one of the five:
 * each waits for the function to return. In the owner's seat it calls wq_chain, wq_hand_out and what only looks; a wq_close or wq_drain
 * there stops or drains the queue, but the worker knows nothing of it, and sleeps until it is asked to. wq_worker_resume alone does not
 * end such a drain: call wq_worker_drain first.
 *
 * Neither the worker, a seat nor the function is NULL, which nothing finds out. Any call may change errno. The join in wq_worker_finish
 * and wq_worker_stop is a cancellation point, and no other call is one; after it another thread may call them.
 *
 * The worker's memory is zero before its first start: static, or = {0}, in C++ = {}. A start that answers an error writes nothing there,
 * but where that is WQ_NO_THREAD. Behind that wq_worker_drain, wq_worker_resume and wq_worker_finish do nothing, and wq_worker_stop
 * answers what wq_release does: WQ_NOT_DONE until the owner itself has closed the queue and executed what was accepted.
 *
 * The worker's memory stays until each sender's last call through it has returned, also one that began before wq_worker_stop did: join
 * the senders' threads, then free it. So no queueing has to announce itself to the worker.
 */
#ifndef WQ_WORKER_H
#define WQ_WORKER_H
#include "wq.h"
#include <limits.h>
#include <linux/futex.h>
#include <pthread.h>
#include <sched.h>
#include <sys/syscall.h>

#ifdef __cplusplus
extern "C" {
#endif

/* Called with each number that is executed that is an item. While the queue drains or is closed it may chain: wq_chain(owner, ..). */
typedef void wq_function(uint32_t item, void *data);

enum wq_phase { WQ_SERVES, WQ_DRAINED, WQ_STOPPED };

typedef struct wq_worker {
    wq_seat *owner;
    wq_function *function;
    void *data;
    uint32_t items;   /* how many the queue has; the numbers from there on are barriers and the stop item */
    uint32_t wanted;  /* the phase that was asked for */
    uint32_t reached; /* a futex: the phase that was reached */
    uint32_t bell;    /* a futex: counts the wake-ups of the worker */
    uint32_t flushes; /* a futex: counts the barriers that were executed, and the queueings that were turned back */
    uint32_t runs;    /* a futex: whether there is a thread to join */
    pthread_t thread;
} wq_worker;

/* Helpers, no calls of a program: wq_futex, wq_load, wq_sleep, wq_set, wq_count. */
/* Helpers, no calls of a program: wq_worker_run, wq_worker_ask, wq_worker_claim, wq_worker_disclaim, wq_worker_launch, wq_worker_ring. */
/* syscall of the C library, which unistd.h declares only where a program asks for more than the standard (_GNU_SOURCE). */
long wq_system_call(long number, ...) __asm__("syscall");
static inline long wq_futex(uint32_t *word, int operation, uint32_t value) {
    return wq_system_call(SYS_futex, word, operation, value, (void *)0, (void *)0, 0);
}
static inline uint32_t wq_load(uint32_t *word) { return __atomic_load_n(word, __ATOMIC_SEQ_CST); }
/* Sleeps until the word is no longer this. */
static inline void wq_sleep(uint32_t *word, uint32_t value) {
    while (wq_load(word) == value) wq_futex(word, FUTEX_WAIT_PRIVATE, value);
}
static inline void wq_set(uint32_t *word, uint32_t value) {
    __atomic_store_n(word, value, __ATOMIC_SEQ_CST);
    wq_futex(word, FUTEX_WAKE_PRIVATE, INT_MAX);
}
static inline void wq_count(uint32_t *word) {
    __atomic_add_fetch(word, 1, __ATOMIC_SEQ_CST);
    wq_futex(word, FUTEX_WAKE_PRIVATE, INT_MAX);
}

/* A call in the owner's seat, once more while another call is in it: to end nothing, or close nothing, would stop the worker for good,
 * and that another call is there says nothing of the items. */
#define WQ_WORKER_AGAIN(code, call) \
    while (((code) = (call)) == WQ_SEAT_BUSY) sched_yield()

static inline void *wq_worker_run(void *given) {
    wq_worker *worker = (wq_worker *)given;
    uint32_t number, code;
    wq_sleep(&worker->runs, 0); /* until worker->thread is written, for a function that stops its own worker */
    for (;;) {
        uint32_t bell = wq_load(&worker->bell), wanted = wq_load(&worker->wanted); /* before the take: a later bell ends the sleep */
        if (wanted == WQ_SERVES && wq_load(&worker->reached) == WQ_DRAINED) {
            WQ_WORKER_AGAIN(code, wq_resume(worker->owner));
            wq_set(&worker->reached, WQ_SERVES);
        }
        if (wanted == WQ_SERVES) WQ_WORKER_AGAIN(code, wq_take(worker->owner, WQ_NO_NUMBER));
        else if (wanted == WQ_DRAINED) WQ_WORKER_AGAIN(code, wq_drain(worker->owner, WQ_NO_NUMBER));
        else WQ_WORKER_AGAIN(code, wq_close(worker->owner, WQ_NO_NUMBER));
        for (;;) {
            WQ_WORKER_AGAIN(code, wq_begin(worker->owner, &number));
            if (code != WQ_OK) break;
            if (number < worker->items) worker->function(number, worker->data);
            WQ_WORKER_AGAIN(code, wq_end(worker->owner));
            if (number >= worker->items) wq_count(&worker->flushes);
        }
        if (wanted == WQ_SERVES) {
            WQ_WORKER_AGAIN(code, wq_rest(worker->owner));
            if (code == WQ_NO) continue; /* something was queued meanwhile */
        } else {
            wq_set(&worker->reached, wanted);
        }
        if (wanted == WQ_STOPPED) return NULL;
        wq_sleep(&worker->bell, bell);
    }
}

/* A stop is for good: a drain or resume that comes behind that of the worker's own function does not take it back. */
static inline void wq_worker_ask(wq_worker *worker, uint32_t phase) {
    uint32_t wanted = wq_load(&worker->wanted);
    while (wanted != WQ_STOPPED && !__atomic_compare_exchange_n(&worker->wanted, &wanted, phase, 0, __ATOMIC_SEQ_CST, __ATOMIC_SEQ_CST)) { }
    wq_count(&worker->bell);
}

/* Takes the owner's seat for one worker, by a word of its own: a worker that sleeps is in no call of the seat. */
static inline uint32_t wq_worker_claim(wq_seat *owner) {
#ifndef WQ_UNCHECKED
    if (owner->self != owner) return WQ_NO_SEAT;
    if (__atomic_exchange_n(&owner->served, 1, __ATOMIC_SEQ_CST)) return WQ_IN_USE;
#else
    (void)owner;
#endif
    return WQ_OK;
}
static inline void wq_worker_disclaim(wq_seat *owner) {
#ifndef WQ_UNCHECKED
    __atomic_store_n(&owner->served, 0, __ATOMIC_SEQ_CST);
#else
    (void)owner;
#endif
}

static inline uint32_t wq_worker_launch(wq_worker *worker, wq_seat *owner, uint32_t items, wq_function *function, void *data) {
    uint32_t code = wq_rest(owner); /* that the queue rests then does no harm: the worker takes first */
    if (code != WQ_YES && code != WQ_NO) return code;
    if (items == 0) return WQ_NO_ITEM;
    /* on an open queue, as this is, wq_chain queues nothing, and tells which items there are */
    WQ_WORKER_AGAIN(code, wq_chain(owner, items - 1));
    if (code == WQ_NO_ITEM) return WQ_NO_ITEM;
    WQ_WORKER_AGAIN(code, wq_chain(owner, items));
    if (code != WQ_NO_ITEM) return WQ_NO_ITEM;
    worker->owner = owner;
    worker->function = function;
    worker->data = data;
    worker->items = items;
    worker->wanted = worker->reached = WQ_SERVES;
    worker->bell = worker->flushes = worker->runs = 0;
    if (pthread_create(&worker->thread, NULL, wq_worker_run, worker) != 0) return WQ_NO_THREAD;
    wq_set(&worker->runs, 1);
    return WQ_OK;
}

/* Starts a thread that executes the queue of this owner, which has so many items. WQ_OK or WQ_NO_THREAD; or, without a thread, what
 * wq_rest answers to a seat that is no owner's (WQ_NO_SEAT, WQ_SEAT_BUSY, WQ_NOT_OWNER), a queue that is closed or drains, and an owner
 * that has not ended all that it took (WQ_IS_CLOSED, WQ_IS_DRAINING, WQ_SOME_WAIT, WQ_IS_RUNNING): a worker would get nowhere.
 * WQ_IN_USE where a worker executes from this seat already, or a worker runs in this memory, and WQ_NO_ITEM where the queue has another
 * number of items. After WQ_NO_ITEM and WQ_NO_THREAD the queue may rest. */
static inline uint32_t wq_worker_start(wq_worker *worker, wq_seat *owner, uint32_t items, wq_function *function, void *data) {
    uint32_t code;
#ifndef WQ_UNCHECKED
    if (wq_load(&worker->runs)) return WQ_IN_USE;
#endif
    code = wq_worker_claim(owner);
    if (code) return code;
    code = wq_worker_launch(worker, owner, items, function, data);
    if (code) wq_worker_disclaim(owner);
    return code;
}

static inline uint32_t wq_worker_ring(wq_worker *worker, uint32_t code) {
    if (wq_wakes(code)) wq_count(&worker->bell);
    return code;
}

/* Wakes the worker where a queueing of wq.h was answered WQ_WAKES, on which it would sleep on; for wq_queue_tries, wq_flush_begin and
 * wq_request_stop. Where it was turned back, this wakes whoever sleeps in wq_worker_flush: a thread that flushes the same barrier may have
 * seen its bit set meanwhile, and looks again. Gives the code back. */
static inline uint32_t wq_worker_wake(wq_worker *worker, uint32_t code) {
    if (code == WQ_CLOSED || code == WQ_DRAINING || code == WQ_CONTENDED) wq_count(&worker->flushes);
    return wq_worker_ring(worker, code);
}

/* Queues an item, and wakes the worker where it sleeps. */
static inline uint32_t wq_worker_queue(wq_worker *worker, wq_seat *sender, uint32_t item) {
    return wq_worker_ring(worker, wq_queue(sender, item));
}

/* Queues a barrier, and sleeps until all that was accepted before it has ended. Where the answer is no queueing it has not waited to
 * the end: the barrier was not queued, or the seat was given up meanwhile (WQ_NOT_SENDER) and the barrier is queued all the same. Not
 * from the worker's own function, and not before wq_worker_start has answered WQ_OK: it would sleep, with its barrier queued. */
static inline uint32_t wq_worker_flush(wq_worker *worker, wq_seat *sender, uint32_t barrier) {
    uint32_t code = wq_worker_wake(worker, wq_flush_begin(sender, barrier));
    if (!wq_is_queued(code)) return code;
    for (;;) {
        uint32_t flushes = wq_load(&worker->flushes), done = wq_flush_done(sender, barrier);
        if (done == WQ_YES) return code;
        if (done == WQ_NO) wq_sleep(&worker->flushes, flushes);
        else if (done == WQ_SEAT_BUSY) sched_yield(); /* nothing was found out, so this may be after the last bell */
        else return done;
    }
}

/* Drains the queue: sleeps until all that was accepted has ended. Until wq_worker_resume a queueing is answered WQ_DRAINING, or
 * WQ_PENDING where the number's bit is set. Neither is for the worker's own function. Both return at once where there is no thread that
 * would do it: the worker was not started, in memory that is zero, or wq_worker_finish has returned. */
static inline void wq_worker_drain(wq_worker *worker) {
    if (!worker->runs) return;
    wq_worker_ask(worker, WQ_DRAINED);
    wq_sleep(&worker->reached, WQ_SERVES);
}
static inline void wq_worker_resume(wq_worker *worker) {
    if (!worker->runs) return;
    wq_worker_ask(worker, WQ_SERVES);
    wq_sleep(&worker->reached, WQ_DRAINED);
}

/* Closes the queue, executes all that was accepted, and ends the thread. The owner's seat is the caller's again, to count and release. A
 * second time it does nothing, nor of a worker that was not started, in memory that is zero. In the worker's own function it asks for
 * all this and returns at once, and another thread's call waits for it. So it is where pthread_join finds out that the function waits for
 * the thread that calls this (EDEADLK), which it need not. */
static inline void wq_worker_finish(wq_worker *worker) {
    if (!worker->runs) return;
    wq_worker_ask(worker, WQ_STOPPED);
    if (pthread_equal(worker->thread, pthread_self())) return; /* no thread joins itself: it ends, and another one joins it */
    if (pthread_join(worker->thread, NULL) != 0) return;       /* nor one that joins this thread: the worker runs still */
    wq_worker_disclaim(worker->owner);
    worker->runs = 0;
}
/* The same, also after it, and gives the owner's seat up. The worker's memory is still that of each sender whose call has not returned
 * (above). WQ_NO_SEAT of a worker that was not started, in memory that is zero, or that has given its seat up, and WQ_NOT_DONE in the
 * worker's own function, or where pthread_join was refused. Whoever releases the seat behind wq_worker_finish does so once, by this or by
 * wq_release. */
static inline uint32_t wq_worker_stop(wq_worker *worker) {
    uint32_t code;
    wq_worker_finish(worker);
    if (worker->runs) return WQ_NOT_DONE; /* it was not joined, and the seat is the worker's still */
    if (!worker->owner) return WQ_NO_SEAT;
    code = wq_release(worker->owner);
    if (code == WQ_OK) worker->owner = NULL; /* a start that is refused writes nothing, and a stop may come behind it */
    return code;
}

#ifdef __cplusplus
}
#endif
#endif
