// Several queues, each a GThreadPool with one exclusive thread, to measure `bench_queue pool` beside.
// usage: pool_glib QUEUES WORKERS SENDERS TOTAL, where WORKERS is passed over; prints `items N nanos T picks K strays S`.
//
// One thread a queue keeps the items of a queue in order, one at a time. It takes each item by itself, so a pick is an item. As in
// the product an item that is pending is not queued again: a bit says so, which is cleared before the item runs. An item's work
// counts, and looks whether it comes in its sender's order: a stray does not.
#include <glib.h>
#include <inttypes.h>
#include <sched.h>
#include <stdatomic.h>
#include <stdbool.h>
#include <stdio.h>
#include <stdlib.h>
#include <time.h>

#define SLICE 64 // items of one sender on one queue
#define LINE 64

struct item {
    atomic_bool pending;
    uint32_t number;
};

struct queue {
    _Alignas(LINE) uint64_t items; // what the work has counted
    uint64_t strays;
    uint32_t *next; // which item of each sender comes next
    _Alignas(LINE) GThreadPool *pool;
    struct item *all;
};

static struct queue *queues;
static uint32_t queue_count, sender_count;
static uint64_t rounds;

static void run_item(gpointer given, gpointer of) {
    struct item *item = given;
    struct queue *queue = of;
    atomic_store(&item->pending, false);
    uint32_t number = item->number;
    uint32_t *next = &queue->next[number / SLICE];
    queue->items++;
    queue->strays += *next != number;
    *next = (number + 1) % SLICE == 0 ? number + 1 - SLICE : number + 1;
}

// Waits until an item is no longer pending, and marks it so.
static void hold(atomic_bool *pending) {
    for (uint64_t turn = 0; atomic_exchange(pending, true); turn++) {
        for (int spin = 0; spin < 16; spin++) {
            __builtin_ia32_pause();
        }
        if (turn % 64 == 63) {
            sched_yield();
        }
    }
}

// Queues its items on all queues in turn, so many rounds.
static gpointer feed(gpointer given) {
    uint32_t from = GPOINTER_TO_UINT(given) * SLICE;
    for (uint64_t round = 0; round < rounds; round++) {
        uint32_t number = from + (uint32_t)(round % SLICE);
        for (uint32_t queue = 0; queue < queue_count; queue++) {
            struct item *item = &queues[queue].all[number];
            hold(&item->pending);
            g_thread_pool_push(queues[queue].pool, item, NULL);
        }
    }
    return NULL;
}

// False where a thread could not be made.
static bool make_queue(struct queue *queue) {
    *queue = (struct queue){.next = g_new0(uint32_t, sender_count)};
    queue->all = g_new0(struct item, (size_t)sender_count * SLICE);
    for (uint32_t number = 0; number < sender_count * SLICE; number++) {
        queue->all[number].number = number;
    }
    for (uint32_t sender = 0; sender < sender_count; sender++) {
        queue->next[sender] = sender * SLICE;
    }
    queue->pool = g_thread_pool_new(run_item, queue, 1, TRUE, NULL);
    return queue->pool != NULL;
}

int main(int argc, char **argv) {
    if (argc != 5) {
        fprintf(stderr, "usage: pool_glib QUEUES WORKERS SENDERS TOTAL\n");
        return 2;
    }
    queue_count = (uint32_t)strtoul(argv[1], NULL, 10);
    sender_count = (uint32_t)strtoul(argv[3], NULL, 10);
    if (queue_count == 0 || sender_count == 0) {
        return 2;
    }
    rounds = strtoull(argv[4], NULL, 10) / queue_count / sender_count;
    GThread **senders = g_new0(GThread *, sender_count);
    queues = aligned_alloc(LINE, queue_count * sizeof *queues);
    if (queues == NULL) {
        return 3;
    }
    struct timespec start, end;
    clock_gettime(CLOCK_MONOTONIC, &start);
    for (uint32_t number = 0; number < queue_count; number++) {
        if (!make_queue(&queues[number])) {
            return 3;
        }
    }
    for (uint32_t number = 0; number < sender_count; number++) {
        senders[number] = g_thread_new("sender", feed, GUINT_TO_POINTER(number));
    }
    for (uint32_t number = 0; number < sender_count; number++) {
        g_thread_join(senders[number]);
    }
    uint64_t items = 0, strays = 0;
    for (uint32_t number = 0; number < queue_count; number++) {
        g_thread_pool_free(queues[number].pool, FALSE, TRUE);
        items += queues[number].items;
        strays += queues[number].strays;
    }
    clock_gettime(CLOCK_MONOTONIC, &end);
    printf("items %" PRIu64 " nanos %" PRId64 " picks %" PRIu64 " strays %" PRIu64 "\n", items,
           (int64_t)(end.tv_sec - start.tv_sec) * 1000000000 + (end.tv_nsec - start.tv_nsec), items, strays);
    return 0;
}
