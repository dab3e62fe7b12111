// The same scheme in C11, to measure bench_queue beside: items that several threads queue and one thread executes in order.
// usage: scheme eager|patient SENDERS SLICE TOTAL; prints `items N nanos T takes K least L`,
// of which the last is how many items the sender queued that queued fewest.
//
// It has the queue's own words and atomic steps, all sequentially consistent: hold, look, link, push; take, walk and turn; begin,
// end. Compiled with -DFEWEST=1 it has the fewest that an ordered workqueue needs: a PENDING bit, a list that is pushed to
// (`llist_add`), taken whole (`llist_del_all`) and turned round, and the bit cleared before each item runs; links are plain stores,
// and nothing is counted. With 0 senders one thread queues a slice of items and executes it in turn. A `patient` owner passes
// some time after a short take, and a sender some between two tries to push; the queue's own steps have the latter always.
#include <inttypes.h>
#include <pthread.h>
#include <sched.h>
#include <stdatomic.h>
#include <stdbool.h>
#include <stdio.h>
#include <stdlib.h>
#include <string.h>
#include <time.h>

#ifndef FEWEST
#define FEWEST 0
#endif

#define CLOSED UINT64_MAX
#define LINKING (FEWEST ? memory_order_relaxed : memory_order_seq_cst)
#define TRIES 1000
#define SHORT_TAKE 128
#define PAUSE 128
#define FIRST_SPINS 256
#define MOST_SPINS 1024

struct queue {
    _Atomic uint64_t *words; // the head, a link for each number, an item word for each number, the count of ended ones
    uint32_t numbers;
    bool is_patient;
    uint32_t front;   // of what was taken and has not begun, the links lead from the first number on, oldest first
    uint32_t waiting; // how many they are
    uint64_t ended;
};

enum answer { QUEUED, PENDING, REFUSED, CONTENDED };

static void spin(uint32_t turns) {
    for (uint32_t turn = 0; turn < turns; turn++) {
        __builtin_ia32_pause();
    }
}

static _Atomic uint64_t *link_of(const struct queue *queue, uint32_t number) {
    return &queue->words[1 + (size_t)number];
}

static _Atomic uint64_t *item_of(const struct queue *queue, uint32_t number) {
    return &queue->words[1 + (size_t)queue->numbers + number];
}

// Queues a number: hold, and then look, link, push, with at most so many tries.
__attribute__((noinline)) static enum answer queue_try(struct queue *queue, uint32_t number) {
    if (atomic_fetch_or(item_of(queue, number), 1) != 0) {
        return PENDING;
    }
    enum answer answer = CONTENDED;
    uint32_t spins = FIRST_SPINS;
    for (uint32_t turn = 0; FEWEST || turn < TRIES; turn++) {
        uint64_t head = atomic_load(&queue->words[0]);
        if (head == CLOSED) {
            answer = REFUSED;
            break;
        }
        atomic_store_explicit(link_of(queue, number), head, LINKING);
        if (atomic_compare_exchange_strong(&queue->words[0], &head, (uint64_t)number + 1)) {
            return QUEUED;
        }
        if (!FEWEST || queue->is_patient) {
            spin(spins);
            spins = spins < MOST_SPINS ? 2 * spins : MOST_SPINS;
        }
    }
    atomic_fetch_and(item_of(queue, number), 0);
    return answer;
}

// Takes the whole list, walks it from the newest number to the oldest, and turns each link. Answers how many it took.
__attribute__((noinline)) static uint32_t take(struct queue *queue, uint64_t rest) {
    uint64_t word = atomic_exchange(&queue->words[0], rest);
    if (word == 0 || word == CLOSED) {
        return 0;
    }
    uint32_t front = (uint32_t)(word - 1);
    uint32_t count = 1;
    word = atomic_load(link_of(queue, front));
    while (word != 0) {
        uint32_t number = (uint32_t)(word - 1);
        word = atomic_load(link_of(queue, number));
        atomic_store_explicit(link_of(queue, number), (uint64_t)front + 1, LINKING);
        front = number;
        count++;
    }
    queue->front = front;
    queue->waiting = count;
    return count;
}

// Executes what was taken, with a function that does nothing.
__attribute__((noinline)) static uint64_t execute(struct queue *queue, uint64_t limit) {
    uint64_t count = 0;
    while (count < limit && queue->waiting != 0) {
        uint32_t number = queue->front;
        if (queue->waiting > 1) {
            queue->front = (uint32_t)(atomic_load(link_of(queue, number)) - 1);
        }
        queue->waiting--;
        atomic_fetch_and(item_of(queue, number), 0);
        if (!FEWEST) {
            atomic_fetch_add(&queue->words[1 + 2 * (size_t)queue->numbers], 1);
        }
        queue->ended++;
        count++;
    }
    return count;
}

// Queues an item once it is no longer pending. False where the queue is closed.
static bool offer(struct queue *queue, uint32_t number) {
    for (uint64_t turn = 0;; turn++) {
        switch (queue_try(queue, number)) {
        case QUEUED:
            return true;
        case REFUSED:
            return false;
        default:
            spin(16);
            if (turn % 64 == 63) {
                sched_yield();
            }
        }
    }
}

struct sender {
    struct queue *queue;
    uint32_t from, to;
    uint64_t queued;
    pthread_t thread;
};

// Queues its slice of items again and again until the queue is closed.
static void *feed(void *given) {
    struct sender *sender = given;
    for (;;) {
        for (uint32_t item = sender->from; item < sender->to; item++) {
            if (!offer(sender->queue, item)) {
                return NULL;
            }
            sender->queued++;
        }
    }
}

// Takes and executes until so many items have ended.
static uint64_t run(struct queue *queue, uint64_t total, uint32_t alone) {
    uint64_t takes = 0;
    while (queue->ended < total) {
        for (uint32_t item = 0; item < alone; item++) {
            queue_try(queue, item);
        }
        uint32_t count = take(queue, 0);
        takes += count != 0;
        execute(queue, total - queue->ended);
        if (queue->is_patient && alone == 0 && count < SHORT_TAKE) {
            spin(PAUSE);
        } else if (count == 0) {
            spin(1);
        }
    }
    return takes;
}

// Closes the queue and executes what is left, so that no sender waits for an item that would be pending for ever.
static void finish(struct queue *queue) {
    execute(queue, UINT64_MAX);
    take(queue, CLOSED);
    execute(queue, UINT64_MAX);
}

int main(int argc, char **argv) {
    if (argc != 5 || (strcmp(argv[1], "eager") != 0 && strcmp(argv[1], "patient") != 0)) {
        fprintf(stderr, "usage: scheme eager|patient SENDERS SLICE TOTAL\n");
        return 2;
    }
    uint32_t senders = (uint32_t)strtoul(argv[2], NULL, 10);
    uint32_t slice = (uint32_t)strtoul(argv[3], NULL, 10);
    uint64_t total = strtoull(argv[4], NULL, 10);
    struct queue queue = {.numbers = (senders == 0 ? 1 : senders) * slice + 2};
    queue.is_patient = strcmp(argv[1], "patient") == 0;
    queue.words = calloc(2 + 2 * (size_t)queue.numbers, sizeof *queue.words);
    struct sender *all = calloc((size_t)senders + 1, sizeof *all);
    if (slice == 0 || queue.words == NULL || all == NULL) {
        return 3;
    }
    struct timespec start, end;
    clock_gettime(CLOCK_MONOTONIC, &start);
    for (uint32_t number = 0; number < senders; number++) {
        all[number] = (struct sender){.queue = &queue, .from = number * slice, .to = (number + 1) * slice};
        if (pthread_create(&all[number].thread, NULL, feed, &all[number]) != 0) {
            return 3;
        }
    }
    uint64_t takes = run(&queue, total, senders == 0 ? slice : 0);
    uint64_t ended = queue.ended;
    finish(&queue);
    uint64_t least = senders == 0 ? 0 : UINT64_MAX;
    for (uint32_t number = 0; number < senders; number++) {
        pthread_join(all[number].thread, NULL);
        least = all[number].queued < least ? all[number].queued : least;
    }
    clock_gettime(CLOCK_MONOTONIC, &end);
    printf("items %" PRIu64 " nanos %" PRId64 " takes %" PRIu64 " least %" PRIu64 "\n", ended,
           (int64_t)(end.tv_sec - start.tv_sec) * 1000000000 + (end.tv_nsec - start.tv_nsec), takes, least);
    free(all);
    free(queue.words);
    return 0;
}
