// Items that several threads queue and one executes in order, to measure the calls of wq.h and what a user of C might take in their
// place. usage: seats seats|mutex|async|pool SENDERS SLICE TOTAL; prints `items N nanos T takes K least L`, as bench_queue does. With 0
// senders one thread queues a slice and executes it in turn.
//
// `seats` is wq.h; `mutex` a mutex, a ring and a PENDING byte an item; where it is compiled with -DGLIB=1, `async` a GAsyncQueue with
// such bytes, and `pool` a GThreadPool with them and one exclusive thread. That thread executes, with 0 senders too, and the program's
// own sleeps until it has executed a batch, which it counts as a take. Of a GAsyncQueue a take pops item by item, until there is none.
// After a short take the owner passes three quarters of a microsecond, as bench_queue does, and a sender of wq.h that lost an exchange
// gives way by the same count of pauses: it is measured, since a pause takes 6 nanoseconds on some processors and 45 on others, and all
// kinds pause alike.
#include <inttypes.h>
#include <pthread.h>
#include <sched.h>
#include <semaphore.h>
#include <stdatomic.h>
#include <stdbool.h>
#include <stdio.h>
#include <stdlib.h>
#include <string.h>
#include <time.h>
#include <wq.h>
#if GLIB
#include <glib.h>
#endif

#define TRIES 1000
#define SHORT_TAKE 128
#define MOST_SENDERS 64

enum answer { QUEUED, PENDING, REFUSED, CONTENDED };

// What a queue can do: `offer` queues an item of a sender, `take` makes all that was queued ready and says how many that is, `run`
// executes one of these, `stop` refuses all that comes.
struct queue {
    bool (*make)(uint32_t senders, uint32_t items);
    enum answer (*offer)(uint32_t sender, uint32_t item);
    uint32_t (*take)(void);
    void (*run)(void);
    void (*stop)(void);
};

static volatile uint64_t work;
static uint32_t slice;
static bool is_lone; // no senders
static uint32_t spins; // as many pauses as pass in three quarters of a microsecond

static void spin(uint32_t turns) {
    for (uint32_t turn = 0; turn < turns; turn++) __builtin_ia32_pause();
}

// ---- wq.h

static wq_seat owner, seats[MOST_SENDERS];

static bool make_seats(uint32_t senders, uint32_t items) {
    if (wq_init(&owner) || wq_build(&owner, items, 1, senders)) return false;
    for (uint32_t at = senders; at-- > 0;)
        if (wq_init(&seats[at]) || wq_hand_out(&owner, &seats[at]) || wq_set_spins(&seats[at], spins)) return false;
    return true;
}

static enum answer offer_seat(uint32_t sender, uint32_t item) {
    uint32_t code = wq_queue_tries(&seats[sender], item, TRIES);
    return wq_is_queued(code) ? QUEUED : code == WQ_PENDING ? PENDING : code == WQ_CONTENDED ? CONTENDED : REFUSED;
}

static uint32_t take_seat(void) {
    uint32_t count = 0;
    wq_take(&owner, &count);
    return count;
}

static void run_seat(void) {
    uint32_t number;
    if (wq_begin(&owner, &number)) abort();
    work++;
    wq_end(&owner);
}

static void stop_seats(void) { wq_close(&owner, WQ_NO_NUMBER); }

// ---- a mutex and a ring

static struct {
    pthread_mutex_t lock;
    uint32_t *queued, *taken, count, next;
    bool is_closed;
    _Atomic unsigned char *pending;
} ring = {.lock = PTHREAD_MUTEX_INITIALIZER};

static bool make_ring(uint32_t senders, uint32_t items) {
    (void)senders;
    ring.queued = calloc(items, sizeof *ring.queued);
    ring.taken = calloc(items, sizeof *ring.taken);
    ring.pending = calloc(items, 1);
    return ring.queued && ring.taken && ring.pending;
}

static enum answer offer_ring(uint32_t sender, uint32_t item) {
    (void)sender;
    if (atomic_exchange(&ring.pending[item], 1)) return PENDING;
    pthread_mutex_lock(&ring.lock);
    bool is_closed = ring.is_closed;
    if (!is_closed) ring.queued[ring.count++] = item;
    pthread_mutex_unlock(&ring.lock);
    return is_closed ? REFUSED : QUEUED;
}

static uint32_t take_ring(void) {
    pthread_mutex_lock(&ring.lock);
    uint32_t *taken = ring.queued, count = ring.count;
    ring.queued = ring.taken;
    ring.taken = taken;
    ring.count = ring.next = 0;
    pthread_mutex_unlock(&ring.lock);
    return count;
}

static void run_ring(void) {
    atomic_store(&ring.pending[ring.taken[ring.next++]], 0);
    work++;
}

static void stop_ring(void) {
    pthread_mutex_lock(&ring.lock);
    ring.is_closed = true;
    pthread_mutex_unlock(&ring.lock);
}

// ---- a GAsyncQueue

#if GLIB
static GAsyncQueue *async;
static _Atomic unsigned char *async_pending;
static atomic_bool async_closed;
static gpointer *async_taken; // the batch, from async_next on
static uint32_t async_next;

static bool make_async(uint32_t senders, uint32_t items) {
    (void)senders;
    async = g_async_queue_new();
    async_pending = calloc(items, 1);
    async_taken = calloc(items, sizeof *async_taken);
    return async_pending && async_taken;
}

static enum answer offer_async(uint32_t sender, uint32_t item) {
    (void)sender;
    if (atomic_load(&async_closed)) return REFUSED;
    if (atomic_exchange(&async_pending[item], 1)) return PENDING;
    g_async_queue_push(async, GUINT_TO_POINTER(item + 1));
    return QUEUED;
}

// All that stands there; a number is pending until it is executed, so the batch has room.
static uint32_t take_async(void) {
    uint32_t count = 0;
    gpointer item;
    while ((item = g_async_queue_try_pop(async))) async_taken[count++] = item;
    async_next = 0;
    return count;
}

static void run_async(void) {
    atomic_store(&async_pending[GPOINTER_TO_UINT(async_taken[async_next++]) - 1], 0);
    work++;
}

static void stop_async(void) { atomic_store(&async_closed, true); }

// ---- a GThreadPool

static GThreadPool *pool;
static _Atomic unsigned char *pool_pending;
static atomic_bool pool_closed;
static sem_t pool_ran; // a batch
static uint32_t pool_batch, pool_left;

// In the pool's thread.
static void execute_pooled(gpointer item, gpointer none) {
    (void)none;
    atomic_store(&pool_pending[GPOINTER_TO_UINT(item) - 1], 0);
    work++;
    if (--pool_left == 0) {
        pool_left = pool_batch;
        sem_post(&pool_ran);
    }
}

static bool make_pool(uint32_t senders, uint32_t items) {
    (void)senders;
    pool_left = pool_batch = is_lone ? slice : 4096;
    pool_pending = calloc(items, 1);
    if (!pool_pending || sem_init(&pool_ran, 0, 0)) return false;
    pool = g_thread_pool_new(execute_pooled, NULL, 1, TRUE, NULL);
    return pool != NULL;
}

static enum answer offer_pool(uint32_t sender, uint32_t item) {
    (void)sender;
    if (atomic_load(&pool_closed)) return REFUSED;
    if (atomic_exchange(&pool_pending[item], 1)) return PENDING;
    g_thread_pool_push(pool, GUINT_TO_POINTER(item + 1), NULL);
    return QUEUED;
}

static uint32_t take_pool(void) {
    while (sem_wait(&pool_ran)) continue; // a signal came
    return pool_batch;
}

static void run_pool(void) {} // its thread has

static void stop_pool(void) { atomic_store(&pool_closed, true); }
#endif

// ---- threads

static const struct {
    const char *name;
    struct queue queue;
} kinds[] = {
    {"seats", {make_seats, offer_seat, take_seat, run_seat, stop_seats}},
    {"mutex", {make_ring, offer_ring, take_ring, run_ring, stop_ring}},
#if GLIB
    {"async", {make_async, offer_async, take_async, run_async, stop_async}},
    {"pool", {make_pool, offer_pool, take_pool, run_pool, stop_pool}},
#endif
};

static struct queue queue;
static atomic_bool is_over;
static struct { _Alignas(128) uint64_t queued; } counts[MOST_SENDERS];

static void *feed(void *given) {
    uint32_t sender = (uint32_t)(uintptr_t)given;
    for (uint64_t turn = 0;; turn++)
        for (uint32_t item = sender * slice; item < (sender + 1) * slice; item++) {
            enum answer answer;
            for (uint64_t wait = 0; (answer = queue.offer(sender, item)) == PENDING || answer == CONTENDED; wait++) {
                if (atomic_load(&is_over)) return NULL; // what is pending now is not executed any more
                spin(16);
                if (wait % 64 == 63) sched_yield();
            }
            if (answer == REFUSED) return NULL;
            counts[sender].queued++;
        }
}

static uint64_t nanos(void) {
    struct timespec now;
    clock_gettime(CLOCK_MONOTONIC, &now);
    return (uint64_t)now.tv_sec * 1000000000 + (uint64_t)now.tv_nsec;
}

int main(int argc, char **argv) {
    if (argc != 5) return 2;
    for (size_t at = 0; at < sizeof kinds / sizeof *kinds; at++)
        if (!strcmp(argv[1], kinds[at].name)) queue = kinds[at].queue;
    uint32_t senders = (uint32_t)atoi(argv[2]), most = senders ? senders : 1;
    uint64_t total = strtoull(argv[4], NULL, 10), done = 0, takes = 0, least = UINT64_MAX;
    pthread_t ids[MOST_SENDERS];
    slice = (uint32_t)atoi(argv[3]);
    is_lone = senders == 0;
    spins = wq_measured_spins();
    if (!queue.make || senders > MOST_SENDERS || !queue.make(most, most * slice)) return 2;
    uint64_t start = nanos();
    for (uint32_t at = 0; at < senders; at++)
        if (pthread_create(&ids[at], NULL, feed, (void *)(uintptr_t)at)) return 2;
    while (done < total) {
        for (uint32_t item = 0; is_lone && item < slice; item++) queue.offer(0, item);
        uint32_t count = queue.take();
        takes += count > 0;
        for (uint32_t at = 0; at < count; at++) queue.run();
        done += count;
        if (!is_lone && count < SHORT_TAKE) spin(spins);
    }
    uint64_t spent = nanos() - start;
    atomic_store(&is_over, true);
    queue.stop();
    for (uint32_t at = 0; at < senders; at++) {
        pthread_join(ids[at], NULL);
        least = counts[at].queued < least ? counts[at].queued : least;
    }
    printf("items %" PRIu64 " nanos %" PRIu64 " takes %" PRIu64 " least %" PRIu64 "\n", done, spent, takes, is_lone ? done : least);
    return 0;
}
