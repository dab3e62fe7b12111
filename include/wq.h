/* Ordered workqueues for C: a front over the proved library `wq_c` (libyeangvos.a, libyeangvos.so). docs/C.md says how to use it.
 *
 * A queue has items (0 .. items-1), barriers (0 .. barriers-1) and a stop item. `wq_build` gives its owner a seat, `wq_hand_out` each
 * sender one. A seat is memory of the caller's, aligned as its type says (malloc's is not), made vacant by `wq_init` before any other
 * call. While it is a sender's or an owner's it is not copied, moved or freed. A vacant one may go; where it was moved it wants `wq_init`
 * again. No call takes NULL for a seat, and none finds it out.
 *
 * Threads: any thread may use a seat, but one call at a time may be in it. A seat is handed to another thread by that thread's
 * start or join, a lock, or a sequentially consistent atomic (the default of C11's atomic_store and atomic_load); different seats of
 * one queue need nothing. No call waits, starts a thread, or takes a lock of its own. Only wq_build takes memory, which the release of
 * a queue's last seat frees, and wq_check_history of wq_pure.h, which frees it before it returns. The allocator of these three may take
 * a lock. Any call may change errno. No call is for a thread that is cancelled asynchronously, nor for the forked child of a process with
 * threads. A queue is of one process: a forked child has a copy of it, and no seat lies in memory that processes share.
 *
 * Signals: a handler's calls are those of the thread that it interrupts. A handler makes no call in a seat in which a call was
 * interrupted. Nor does it call one of the three that take or free memory, wq_measured_spins, or wq_worker.h.
 */
#ifndef WQ_H
#define WQ_H
#if !defined(__x86_64__) || !defined(__linux__) || defined(__ILP32__)
#error "wq.h: the library is for x86-64 Linux with addresses of 64 bits"
#endif
#include <stddef.h>
#include <stdint.h>
#include <time.h>

#ifdef __cplusplus
extern "C" {
#endif

#define WQ_MAJOR 1        /* of the library that this header is for, libyeangvos.so.1 */
#define WQ_SEAT_BYTES 256 /* wq_init compares these two with what the library needs */
#define WQ_SEAT_ALIGN 128 /* so that seats of several threads share no cache line */
#define WQ_MOST_TRIES UINT32_MAX

/* With WQ_UNCHECKED the members behind the room, and what they find out, are left out. All files of a program agree on that. */
typedef struct wq_seat {
    unsigned char room[WQ_SEAT_BYTES] __attribute__((aligned(WQ_SEAT_ALIGN)));
#ifndef WQ_UNCHECKED
    struct wq_seat *self;  /* where wq_init made it: a copy of a seat, and memory that was not made one, is found out */
    struct wq_seat *owner; /* of its queue */
    uint32_t held;         /* 1 while a call is in it: a second one at the same time is found out */
    uint32_t served;       /* 1 while a worker of wq_worker.h executes from it: a second worker is found out */
#endif
} wq_seat;

/* A code is compared whole, by ==. WQ_QUEUED, WQ_FIRST and WQ_WAKES alone are bits, and only of an answer of which wq_is_queued is
 * true: other codes share those bits (WQ_CLOSED & WQ_QUEUED is not 0). */
enum wq_code {
    WQ_OK = 0,
    /* The number was queued: it is executed at most once, and exactly once where a drain or the close behind it has ended.
     * WQ_FIRST: the list was empty. WQ_WAKES: the queue rested, so wake its owner. */
    WQ_QUEUED = 1, WQ_FIRST = 2, WQ_WAKES = 4,
    /* Another queueing holds the number, and nothing was changed. If that one is accepted, what was written before this call is there
     * when the number runs; if it is answered WQ_CLOSED, WQ_DRAINING or WQ_CONTENDED, nothing runs. */
    WQ_PENDING = 8,
    WQ_CLOSED = 9,     /* the queue is closed */
    WQ_DRAINING = 10,  /* the queue was seen draining */
    WQ_CONTENDED = 11, /* other seats changed the head of the list at each try */
    WQ_NO = 12, WQ_YES = 13,
    /* Errors, after which nothing has changed, but after WQ_SEAT_SIZE: of the seat, */
    WQ_NOT_SENDER = 64, WQ_NOT_OWNER = 65,
    /* of the arguments, */
    WQ_NO_ITEM = 66, WQ_NO_BARRIER = 67, WQ_NO_TRIES = 68,
    /* of how the queue stands: closed, draining, not draining, open; something that was taken or chained waits, nothing does; a number
     * runs, none does; */
    WQ_IS_CLOSED = 69, WQ_IS_DRAINING = 70, WQ_NOT_DRAINING = 71, WQ_IS_OPEN = 72,
    WQ_SOME_WAIT = 73, WQ_NONE_WAITS = 74, WQ_IS_RUNNING = 75, WQ_NONE_RUNS = 76,
    /* of how seats are taken and given up: not vacant, all senders handed out, not run to its end, no memory, out of the limits. */
    WQ_IN_USE = 77, WQ_NO_SENDER = 78, WQ_NOT_DONE = 79, WQ_MEMORY = 80, WQ_ITEMS = 81, WQ_BARRIERS = 82, WQ_SENDERS = 83,
    /* What this header finds out: another call is in this seat; wq_init did not make it here, or the memory is not aligned for one;
     * WQ_SEAT_BYTES or WQ_SEAT_ALIGN is too small. */
    WQ_SEAT_BUSY = 128, WQ_NO_SEAT = 129, WQ_SEAT_SIZE = 130,
    WQ_NO_THREAD = 131 /* of wq_worker.h: no thread could be started; the queue may rest then */
};

/* Whether this code of a queueing says that it was accepted. */
static inline int wq_is_queued(uint32_t code) { return (code & WQ_QUEUED) && code < WQ_PENDING; }
/* Whether the thread that got this answer has to wake the owner. */
static inline int wq_wakes(uint32_t code) { return wq_is_queued(code) && (code & WQ_WAKES) != 0; }

/* The name of an answer, without its WQ_: "QUEUED|FIRST", say. It is "?" where this header has no such code. */
static inline const char *wq_code_name(uint32_t code) {
    static const char *const answers[] = {"OK", "QUEUED", "?", "QUEUED|FIRST", "?", "QUEUED|WAKES", "?", "QUEUED|FIRST|WAKES",
        "PENDING", "CLOSED", "DRAINING", "CONTENDED", "NO", "YES"};
    static const char *const errors[] = {"NOT_SENDER", "NOT_OWNER", "NO_ITEM", "NO_BARRIER", "NO_TRIES", "IS_CLOSED", "IS_DRAINING",
        "NOT_DRAINING", "IS_OPEN", "SOME_WAIT", "NONE_WAITS", "IS_RUNNING", "NONE_RUNS", "IN_USE", "NO_SENDER", "NOT_DONE",
        "MEMORY", "ITEMS", "BARRIERS", "SENDERS"};
    static const char *const found[] = {"SEAT_BUSY", "NO_SEAT", "SEAT_SIZE", "NO_THREAD"};
    return code <= WQ_YES ? answers[code] : code >= WQ_NOT_SENDER && code <= WQ_SENDERS ? errors[code - WQ_NOT_SENDER]
        : code >= WQ_SEAT_BUSY && code <= WQ_NO_THREAD ? found[code - WQ_SEAT_BUSY] : "?";
}

/* ---- the exports that say how many bytes a seat takes, and how many its address is a multiple of, which is not proved */
size_t wq_c_seat_size(void);
size_t wq_c_seat_align(void);

/* ---- the proved exports. This one makes a vacant seat, and answers nothing; */
void wq_c_init(void *at);
/* each other answers a code in the low half of a word and a number in the high half */
uint64_t wq_c_build(void *at, uint32_t items, uint32_t barriers, uint32_t senders);
uint64_t wq_c_hand_out(void *owner, void *to);
uint64_t wq_c_release(void *at);
uint64_t wq_c_queue(void *at, uint32_t item, uint32_t tries);
uint64_t wq_c_is_pending(void *at, uint32_t item);
uint64_t wq_c_flush_begin(void *at, uint32_t barrier, uint32_t tries);
uint64_t wq_c_flush_done(void *at, uint32_t barrier);
uint64_t wq_c_request_stop(void *at, uint32_t tries);
uint64_t wq_c_set_spins(void *at, uint32_t count);
uint64_t wq_c_number(void *at);
uint64_t wq_c_take(void *at);
uint64_t wq_c_close(void *at);
uint64_t wq_c_drain(void *at);
uint64_t wq_c_resume(void *at);
uint64_t wq_c_next(void *at);
uint64_t wq_c_waiting(void *at);
uint64_t wq_c_begin(void *at);
uint64_t wq_c_end(void *at);
uint64_t wq_c_rest(void *at);
uint64_t wq_c_chain(void *at, uint32_t item);
uint64_t wq_c_is_done(void *at);
uint64_t wq_c_count(void *at, uint32_t which); /* the word is the count */

/* ---- what this header finds out, which is not proved */
/* ThreadSanitizer does not see the library's atomic steps, so it is told that each call comes after the calls that ended before it
 * in any seat of the queue. That is more than there is, so a race between two senders of one queue may be passed over. */
#if defined(__SANITIZE_THREAD__) /* of GCC */
#define WQ_SANITIZES_THREADS
#elif defined(__has_feature) /* of Clang */
#if __has_feature(thread_sanitizer)
#define WQ_SANITIZES_THREADS
#endif
#endif
#if defined(WQ_SANITIZES_THREADS) && !defined(WQ_UNCHECKED)
void __tsan_acquire(void *token);
void __tsan_release(void *token);
#define WQ_ACQUIRE(seat) __tsan_acquire((seat)->owner)
#define WQ_RELEASE(seat) __tsan_release((seat)->owner)
#else
#define WQ_ACQUIRE(seat) ((void)(seat))
#define WQ_RELEASE(seat) ((void)(seat))
#endif

/* Helpers, no calls of a program: wq_enter, wq_leave, wq_answer, wq_sum_counts. */
static inline uint32_t wq_enter(wq_seat *seat) {
#ifndef WQ_UNCHECKED
    if (seat->self != seat) return WQ_NO_SEAT;
    if (__atomic_exchange_n(&seat->held, 1, __ATOMIC_ACQUIRE)) return WQ_SEAT_BUSY;
#endif
    WQ_RELEASE(seat);
    return WQ_OK;
}

static inline void wq_leave(wq_seat *seat) {
    WQ_ACQUIRE(seat);
#ifndef WQ_UNCHECKED
    __atomic_store_n(&seat->held, 0, __ATOMIC_RELEASE);
#endif
}

static inline uint32_t wq_answer(uint64_t word, uint32_t *number) {
    if (number && (uint32_t)word == WQ_OK) *number = (uint32_t)(word >> 32);
    return (uint32_t)word;
}

#define WQ_CALL(seat, number, call) do { \
    uint64_t wq_word; \
    uint32_t wq_found = wq_enter(seat); \
    if (wq_found) return wq_found; \
    wq_word = (call); \
    wq_leave(seat); \
    return wq_answer(wq_word, (number)); } while (0)
#define WQ_NO_NUMBER ((uint32_t *)0)

/* ---- seats */
/* Makes memory a vacant seat; one that is a sender's or an owner's is lost by it. WQ_OK; WQ_NO_SEAT where the memory is not aligned as
 * the type says, which malloc's need not be, or WQ_SEAT_SIZE. */
static inline uint32_t wq_init(wq_seat *seat) {
#ifndef WQ_UNCHECKED
    if ((uintptr_t)seat % WQ_SEAT_ALIGN) return WQ_NO_SEAT;
    seat->self = NULL;
    seat->owner = seat;
    __atomic_store_n(&seat->held, 0, __ATOMIC_RELEASE);
    __atomic_store_n(&seat->served, 0, __ATOMIC_RELEASE);
#endif
    if (wq_c_seat_size() > WQ_SEAT_BYTES || WQ_SEAT_ALIGN % wq_c_seat_align() != 0) return WQ_SEAT_SIZE;
    wq_c_init(seat->room);
#ifndef WQ_UNCHECKED
    seat->self = seat;
#endif
    return WQ_OK;
}

/* Builds a queue of 1 to 65,536 items, 1 to 16 barriers and 1 to 64 senders. Its owner takes the seat. The queue rests: its first
 * queueing is answered WQ_WAKES, unless a take, a drain or a close comes before it, and a wq_rest before these WQ_NO. WQ_OK; WQ_IN_USE,
 * the first of WQ_ITEMS, WQ_BARRIERS and WQ_SENDERS that is out of its limits, or WQ_MEMORY. */
static inline uint32_t wq_build(wq_seat *owner, uint32_t items, uint32_t barriers, uint32_t senders) {
    WQ_CALL(owner, WQ_NO_NUMBER, wq_c_build(owner->room, items, barriers, senders));
}

/* Hands out a sender, of those that are left the one with the highest number. It takes the other seat. One seat twice is WQ_IN_USE,
 * also a vacant one: the library is given two seats, never one as both. WQ_OK; WQ_IN_USE, WQ_NOT_OWNER, WQ_NO_SENDER. */
static inline uint32_t wq_hand_out(wq_seat *owner, wq_seat *to) {
    uint32_t code = wq_enter(to);
    if (code) return code;
    if ((code = owner == to ? (uint32_t)WQ_IN_USE : wq_enter(owner)) == WQ_OK) {
        code = (uint32_t)wq_c_hand_out(owner->room, to->room);
#ifndef WQ_UNCHECKED
        if (code == WQ_OK) to->owner = owner;
#endif
        wq_leave(owner);
    }
    wq_leave(to);
    return code;
}

/* Gives up a seat, which is vacant then; an owner's only once its queue has run to its end. WQ_OK; WQ_NOT_DONE. */
static inline uint32_t wq_release(wq_seat *seat) {
    uint32_t code = wq_enter(seat);
    if (code) return code;
    code = (uint32_t)wq_c_release(seat->room);
    WQ_ACQUIRE(seat);
#ifndef WQ_UNCHECKED
    if (code == WQ_OK) seat->owner = seat;
#endif
    wq_leave(seat);
    return code;
}

/* ---- senders; a seat that is no sender's is answered WQ_NOT_SENDER */
/* Queues an item, with so many tries at most, and 1 at least. WQ_QUEUED with WQ_FIRST and WQ_WAKES, WQ_PENDING, WQ_CLOSED, WQ_DRAINING,
 * WQ_CONTENDED; WQ_NO_ITEM, WQ_NO_TRIES. */
static inline uint32_t wq_queue_tries(wq_seat *sender, uint32_t item, uint32_t tries) {
    WQ_CALL(sender, WQ_NO_NUMBER, wq_c_queue(sender->room, item, tries));
}
/* The same with the most tries, so never WQ_NO_TRIES. */
static inline uint32_t wq_queue(wq_seat *sender, uint32_t item) { return wq_queue_tries(sender, item, WQ_MOST_TRIES); }
/* Whether the item is pending: WQ_YES, which says what WQ_PENDING does, but hands nothing over, or WQ_NO, which does not say that the
 * execution has ended; WQ_NO_ITEM. */
static inline uint32_t wq_is_pending(wq_seat *sender, uint32_t item) {
    WQ_CALL(sender, WQ_NO_NUMBER, wq_c_is_pending(sender->room, item));
}
/* Queues a barrier, which is given by its own number from 0, with the most tries. The codes of wq_queue, but WQ_NO_BARRIER in place of
 * WQ_NO_ITEM. */
static inline uint32_t wq_flush_begin(wq_seat *sender, uint32_t barrier) {
    WQ_CALL(sender, WQ_NO_NUMBER, wq_c_flush_begin(sender->room, barrier, WQ_MOST_TRIES));
}
/* WQ_YES where the barrier is not pending: all that was accepted before it was queued has ended. Else WQ_NO; WQ_NO_BARRIER. Of a flush of
 * one's own it says something only where the last wq_flush_begin of that barrier was answered WQ_QUEUED. */
static inline uint32_t wq_flush_done(wq_seat *sender, uint32_t barrier) {
    WQ_CALL(sender, WQ_NO_NUMBER, wq_c_flush_done(sender->room, barrier));
}
/* Queues the stop item, with the most tries: the queue's last number, items + barriers, at which an owner's loop may end. The codes of
 * wq_queue, but not WQ_NO_ITEM. */
static inline uint32_t wq_request_stop(wq_seat *sender) { WQ_CALL(sender, WQ_NO_NUMBER, wq_c_request_stop(sender->room, WQ_MOST_TRIES)); }
/* How long the sender gives way after a lost exchange: twice as many pauses as the count, then four times, then eight times as many,
 * but never more than 2^32 - 1, which take half a minute or more: a large count makes each lost try long. The count is 128 where
 * nobody sets it. It is time alone, of which no proof says anything. WQ_OK. */
static inline uint32_t wq_set_spins(wq_seat *sender, uint32_t count) { WQ_CALL(sender, WQ_NO_NUMBER, wq_c_set_spins(sender->room, count)); }
/* The sender's number, from 0. WQ_OK. The pointer may be NULL. */
static inline uint32_t wq_number(wq_seat *sender, uint32_t *number) { WQ_CALL(sender, number, wq_c_number(sender->room)); }

/* How many pauses pass in three quarters of a microsecond, from 8 to 512: the count for wq_set_spins, and for an owner whose take found
 * little. Call it once, before other threads start: clock() counts the time of all threads of the program, so it finds fewer where
 * others run. It takes a third of a millisecond, 3 where a pause takes 45 nanoseconds, and answers 128 where clock() tells no time so
 * short. */
static inline uint32_t wq_measured_spins(void) {
    uint64_t least = UINT64_MAX, count; /* the least time is the one in which no other work came between */
    for (int timed = 0; timed < 8; timed++) {
        clock_t start = clock();
        uint64_t spent;
        for (int turn = 0; turn < 8192; turn++) __builtin_ia32_pause();
        spent = (uint64_t)(clock() - start);
        if (spent < least) least = spent;
    }
    if (least == 0) return 128;
    count = 8192 * 3 / 4 * (uint64_t)CLOCKS_PER_SEC / 1000000 / least;
    return count < 8 ? 8 : count > 512 ? 512 : (uint32_t)count;
}

/* ---- the owner; a seat that is no owner's is answered WQ_NOT_OWNER. A number is written only where the code is WQ_OK, and its pointer
 * may be NULL. */
/* Takes all that was queued, and counts it, barriers and the stop item too. WQ_OK; WQ_IS_CLOSED, WQ_IS_DRAINING, WQ_SOME_WAIT. */
static inline uint32_t wq_take(wq_seat *owner, uint32_t *count) { WQ_CALL(owner, count, wq_c_take(owner->room)); }
/* Closes the queue, also one that drains, and takes and counts all that was queued. WQ_OK; WQ_IS_CLOSED. */
static inline uint32_t wq_close(wq_seat *owner, uint32_t *count) { WQ_CALL(owner, count, wq_c_close(owner->room)); }
/* Begins a drain, and takes and counts all that was queued. WQ_OK; WQ_IS_CLOSED, WQ_IS_DRAINING. */
static inline uint32_t wq_drain(wq_seat *owner, uint32_t *count) { WQ_CALL(owner, count, wq_c_drain(owner->room)); }
/* Ends a drain, once all that was taken or chained has ended. WQ_OK; WQ_NOT_DRAINING, WQ_SOME_WAIT, WQ_IS_RUNNING. */
static inline uint32_t wq_resume(wq_seat *owner) { WQ_CALL(owner, WQ_NO_NUMBER, wq_c_resume(owner->room)); }
/* The oldest number that was taken or chained and has not begun. WQ_OK; WQ_NONE_WAITS. */
static inline uint32_t wq_next(wq_seat *owner, uint32_t *number) { WQ_CALL(owner, number, wq_c_next(owner->room)); }
/* How many numbers were taken or chained and have not begun. WQ_OK. */
static inline uint32_t wq_waiting(wq_seat *owner, uint32_t *count) { WQ_CALL(owner, count, wq_c_waiting(owner->room)); }
/* Begins the number that wq_next tells, a barrier (items + its own number) and the stop item (items + barriers) too. WQ_OK;
 * WQ_IS_RUNNING, WQ_NONE_WAITS. */
static inline uint32_t wq_begin(wq_seat *owner, uint32_t *number) { WQ_CALL(owner, number, wq_c_begin(owner->room)); }
/* Ends what runs. WQ_OK; WQ_NONE_RUNS. */
static inline uint32_t wq_end(wq_seat *owner) { WQ_CALL(owner, WQ_NO_NUMBER, wq_c_end(owner->room)); }
/* For an owner that is going to sleep. WQ_YES: the next queueing is answered WQ_WAKES, if no take, drain or close comes before it.
 * WQ_NO: something was queued, or the queue rests already, so take before you sleep. WQ_IS_CLOSED, WQ_IS_DRAINING, WQ_SOME_WAIT,
 * WQ_IS_RUNNING. */
static inline uint32_t wq_rest(wq_seat *owner) { WQ_CALL(owner, WQ_NO_NUMBER, wq_c_rest(owner->room)); }
/* Queues an item behind all that waits, from the execution that runs while the queue is closed or drains. WQ_QUEUED, WQ_PENDING;
 * WQ_NO_ITEM, WQ_IS_OPEN, WQ_NONE_RUNS. */
static inline uint32_t wq_chain(wq_seat *owner, uint32_t item) { WQ_CALL(owner, WQ_NO_NUMBER, wq_c_chain(owner->room, item)); }
/* Whether the queue is closed and all that was accepted has ended: WQ_YES or WQ_NO. */
static inline uint32_t wq_is_done(wq_seat *owner) { WQ_CALL(owner, WQ_NO_NUMBER, wq_c_is_done(owner->room)); }

/* ---- counts */
/* What seats have counted of their own calls; each stops at 2^64 - 1. */
typedef struct wq_counts {
    uint64_t queued, pending, closed, draining, contended; /* queueings of senders, by their answers */
    uint64_t chained, chain_pending, executed;             /* chainings of owners, by their answers, and executions that ended */
} wq_counts;

static inline uint64_t wq_sum_counts(wq_seat *seat, wq_counts *sums) {
    uint64_t *const all[] = {&sums->queued, &sums->pending, &sums->closed, &sums->draining, &sums->contended, &sums->chained,
        &sums->chain_pending, &sums->executed};
    for (uint32_t which = 0; which < 8; which++) *all[which] += wq_c_count(seat->room, which);
    return WQ_OK;
}

/* Adds what the seat has counted since it was taken to these sums, which are not NULL: a sender's counts, an owner's, or nothing where it
 * is vacant. WQ_OK. */
static inline uint32_t wq_add_counts(wq_seat *seat, wq_counts *sums) { WQ_CALL(seat, WQ_NO_NUMBER, wq_sum_counts(seat, sums)); }

/* Whether all that was accepted was executed. So it is of the sums over all seats of a queue that has run to its end, where no count has
 * reached 2^64 - 1. */
static inline int wq_balances(const wq_counts *sums) { return sums->queued + sums->chained == sums->executed; }

#ifdef __cplusplus
}
#endif
#endif
