// Threads that serve several queues, each a mutex and a ring of items, to measure `bench_queue pool` beside.
// usage: pool_mutex QUEUES WORKERS SENDERS TOTAL; prints `items N nanos T picks K strays S`.
//
// A queue that gets an item and is not under way is announced in a ring of queues, with a mutex and a condition of its own; a
// worker that picks it runs its items until none is left. So each queue's items run in order, one at a time, by any worker. Each
// item is locked out by itself; compiled with -DWHOLE=1 a worker copies all that stands in the ring under one lock. As in the
// product an item that is pending is not queued again: a bit says so, which is cleared before the item runs. An item's work counts,
// and looks whether it comes in its sender's order: a stray does not.
#include <inttypes.h>
#include <pthread.h>
#include <sched.h>
#include <stdatomic.h>
#include <stdbool.h>
#include <stdio.h>
#include <stdlib.h>
#include <time.h>

#ifndef WHOLE
#define WHOLE 0
#endif

#define SLICE 64 // items of one sender on one queue
#define STOP UINT32_MAX
#define LINE 64

struct queue {
    _Alignas(LINE) pthread_mutex_t lock;
    uint32_t *ring; // the items that wait, oldest first from `head` on
    uint32_t head, count;
    bool under_way; // announced, or in a worker's hand
    _Alignas(LINE) uint64_t items; // what the work has counted
    uint64_t strays;
    uint32_t *next; // which item of each sender comes next
    _Alignas(LINE) atomic_bool *pending;
};

struct sender {
    uint32_t number;
    pthread_t thread;
};

struct worker {
    uint64_t picks;
    pthread_t thread;
};

static struct queue *queues;
static uint32_t queue_count, worker_count, sender_count, room; // `room` items and a stop item fit in a ring
static uint64_t rounds;
static _Atomic uint32_t feeding;

static pthread_mutex_t ready_lock = PTHREAD_MUTEX_INITIALIZER;
static pthread_cond_t ready = PTHREAD_COND_INITIALIZER;
static uint32_t *announced; // the queues that were announced, oldest first from `first` on
static uint32_t first, waiting, stopped;

static void announce(uint32_t queue) {
    pthread_mutex_lock(&ready_lock);
    announced[(first + waiting++) % queue_count] = queue;
    pthread_cond_signal(&ready);
    pthread_mutex_unlock(&ready_lock);
}

// The queue that was announced first, or STOP where all have run their stop item.
static uint32_t pick(void) {
    pthread_mutex_lock(&ready_lock);
    while (waiting == 0 && stopped < queue_count) {
        pthread_cond_wait(&ready, &ready_lock);
    }
    uint32_t queue = STOP;
    if (waiting != 0) {
        queue = announced[first];
        first = (first + 1) % queue_count;
        waiting--;
    }
    pthread_mutex_unlock(&ready_lock);
    return queue;
}

static void count_stop(void) {
    pthread_mutex_lock(&ready_lock);
    if (++stopped == queue_count) {
        pthread_cond_broadcast(&ready);
    }
    pthread_mutex_unlock(&ready_lock);
}

static void push(uint32_t number, uint32_t item) {
    struct queue *queue = &queues[number];
    pthread_mutex_lock(&queue->lock);
    uint32_t place = queue->head + queue->count++;
    queue->ring[place > room ? place - room - 1 : place] = item;
    bool wakes = !queue->under_way;
    queue->under_way = true;
    pthread_mutex_unlock(&queue->lock);
    if (wakes) {
        announce(number);
    }
}

// Copies what stands in the ring, or only the oldest of it, and answers how many. Where nothing does the queue is not under way.
static uint32_t take(struct queue *queue, uint32_t *batch) {
    pthread_mutex_lock(&queue->lock);
    uint32_t count = WHOLE || queue->count == 0 ? queue->count : 1;
    for (uint32_t place = 0; place < count; place++) {
        batch[place] = queue->ring[queue->head];
        queue->head = queue->head == room ? 0 : queue->head + 1;
    }
    queue->count -= count;
    queue->under_way = count != 0;
    pthread_mutex_unlock(&queue->lock);
    return count;
}

static void run_item(struct queue *queue, uint32_t item) {
    if (item == STOP) {
        count_stop();
        return;
    }
    atomic_store(&queue->pending[item], false);
    uint32_t *next = &queue->next[item / SLICE];
    queue->items++;
    queue->strays += *next != item;
    *next = (item + 1) % SLICE == 0 ? item + 1 - SLICE : item + 1;
}

static void *serve(void *given) {
    struct worker *worker = given;
    uint32_t *batch = calloc((size_t)room + 1, sizeof *batch);
    if (batch == NULL) {
        exit(3);
    }
    for (uint32_t number = pick(); number != STOP; number = pick()) {
        worker->picks++;
        uint32_t count;
        while ((count = take(&queues[number], batch)) != 0) {
            for (uint32_t place = 0; place < count; place++) {
                run_item(&queues[number], batch[place]);
            }
        }
    }
    free(batch);
    return NULL;
}

// Waits until an item is no longer pending, and marks it so.
static void hold(atomic_bool *pending) {
    for (uint64_t turn = 0; atomic_exchange(pending, true); turn++) {
        for (int spin = 0; spin < 16; spin++) {
            __builtin_ia32_pause();
        }
        if (turn % 64 == 63) {
            sched_yield();
        }
    }
}

// Queues its items on all queues in turn, so many rounds; the last one to end queues the stop items.
static void *feed(void *given) {
    uint32_t from = ((struct sender *)given)->number * SLICE;
    for (uint64_t round = 0; round < rounds; round++) {
        uint32_t item = from + (uint32_t)(round % SLICE);
        for (uint32_t number = 0; number < queue_count; number++) {
            hold(&queues[number].pending[item]);
            push(number, item);
        }
    }
    if (atomic_fetch_sub(&feeding, 1) == 1) {
        for (uint32_t number = 0; number < queue_count; number++) {
            push(number, STOP);
        }
    }
    return NULL;
}

static void *row(size_t count, size_t size) {
    void *made = calloc(count, size);
    if (made == NULL) {
        exit(3);
    }
    return made;
}

static void make_queues(void) {
    queues = aligned_alloc(LINE, queue_count * sizeof *queues);
    if (queues == NULL) {
        exit(3);
    }
    announced = row(queue_count, sizeof *announced);
    for (uint32_t number = 0; number < queue_count; number++) {
        struct queue *queue = &queues[number];
        *queue = (struct queue){.ring = row((size_t)room + 1, sizeof(uint32_t))};
        pthread_mutex_init(&queue->lock, NULL);
        queue->pending = row(room, sizeof *queue->pending);
        queue->next = row(sender_count, sizeof *queue->next);
        for (uint32_t sender = 0; sender < sender_count; sender++) {
            queue->next[sender] = sender * SLICE;
        }
    }
}

int main(int argc, char **argv) {
    if (argc != 5) {
        fprintf(stderr, "usage: pool_mutex QUEUES WORKERS SENDERS TOTAL\n");
        return 2;
    }
    queue_count = (uint32_t)strtoul(argv[1], NULL, 10);
    worker_count = (uint32_t)strtoul(argv[2], NULL, 10);
    sender_count = (uint32_t)strtoul(argv[3], NULL, 10);
    if (queue_count == 0 || worker_count == 0 || sender_count == 0) {
        return 2;
    }
    rounds = strtoull(argv[4], NULL, 10) / queue_count / sender_count;
    room = sender_count * SLICE;
    feeding = sender_count;
    struct sender *senders = row(sender_count, sizeof *senders);
    struct worker *workers = row(worker_count, sizeof *workers);
    struct timespec start, end;
    clock_gettime(CLOCK_MONOTONIC, &start);
    make_queues();
    for (uint32_t number = 0; number < worker_count; number++) {
        if (pthread_create(&workers[number].thread, NULL, serve, &workers[number]) != 0) {
            return 3;
        }
    }
    for (uint32_t number = 0; number < sender_count; number++) {
        senders[number].number = number;
        if (pthread_create(&senders[number].thread, NULL, feed, &senders[number]) != 0) {
            return 3;
        }
    }
    uint64_t items = 0, picks = 0, strays = 0;
    for (uint32_t number = 0; number < sender_count; number++) {
        pthread_join(senders[number].thread, NULL);
    }
    for (uint32_t number = 0; number < worker_count; number++) {
        pthread_join(workers[number].thread, NULL);
        picks += workers[number].picks;
    }
    clock_gettime(CLOCK_MONOTONIC, &end);
    for (uint32_t number = 0; number < queue_count; number++) {
        items += queues[number].items;
        strays += queues[number].strays;
    }
    printf("items %" PRIu64 " nanos %" PRId64 " picks %" PRIu64 " strays %" PRIu64 "\n", items,
           (int64_t)(end.tv_sec - start.tv_sec) * 1000000000 + (end.tv_nsec - start.tv_nsec), picks, strays);
    return 0;
}
