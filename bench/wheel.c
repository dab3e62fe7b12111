// A hashed timing wheel in C11, to measure `bench_queue delays` beside: 256 slots of doubly linked items, and for each item the
// PENDING bit that a sender of the queue sets and clears. What is due is linked behind what was due before, as a push does.
// usage: wheel ITEMS ROUNDS; prints nanoseconds an item.
#define _POSIX_C_SOURCE 199309L // clock_gettime
#include <inttypes.h>
#include <stdatomic.h>
#include <stdio.h>
#include <stdlib.h>
#include <time.h>

#define SLOTS 256u
#define A_TICK 16u // so many items are due at one tick

struct entry {
    uint64_t due;
    uint32_t next, previous;
};

struct wheel {
    struct entry *entries; // the items, then a head for each slot
    _Atomic uint64_t *words; // the PENDING bit of each item, then the head of the queue
    uint32_t *links;
    uint32_t items;
    uint64_t tick;
};

static void put(struct wheel *wheel, uint32_t item, uint64_t due) {
    uint32_t head = wheel->items + (uint32_t)(due % SLOTS), last = wheel->entries[head].previous;
    wheel->entries[item] = (struct entry){due, head, last};
    wheel->entries[last].next = item;
    wheel->entries[head].previous = item;
}

static void take(struct wheel *wheel, uint32_t item) {
    struct entry *entry = &wheel->entries[item];
    wheel->entries[entry->previous].next = entry->next;
    wheel->entries[entry->next].previous = entry->previous;
    entry->next = item;
}

__attribute__((noinline)) static void arm(struct wheel *wheel, uint32_t item, uint64_t delay) {
    if (atomic_exchange(&wheel->words[item], 1) == 0)
        put(wheel, item, wheel->tick + delay);
}

__attribute__((noinline)) static void modify(struct wheel *wheel, uint32_t item, uint64_t delay) {
    if (wheel->entries[item].next != item) {
        take(wheel, item);
        put(wheel, item, wheel->tick + delay);
    }
}

__attribute__((noinline)) static void cancel(struct wheel *wheel, uint32_t item) {
    if (wheel->entries[item].next != item) {
        take(wheel, item);
        atomic_store(&wheel->words[item], 0);
    }
}

__attribute__((noinline)) static void push(struct wheel *wheel, uint32_t item) {
    uint64_t head = atomic_load(&wheel->words[wheel->items]);
    wheel->links[item] = (uint32_t)head;
    atomic_compare_exchange_strong(&wheel->words[wheel->items], &head, (uint64_t)item + 1);
}

__attribute__((noinline)) static void advance(struct wheel *wheel) {
    uint64_t now = ++wheel->tick;
    uint32_t head = wheel->items + (uint32_t)(now % SLOTS);
    for (uint32_t item = wheel->entries[head].next, after; item != head; item = after) {
        after = wheel->entries[item].next;
        if (wheel->entries[item].due <= now) {
            take(wheel, item);
            push(wheel, item);
        }
    }
}

static uint64_t nanos(void) {
    struct timespec now;
    clock_gettime(CLOCK_MONOTONIC, &now);
    return (uint64_t)now.tv_sec * 1000000000u + (uint64_t)now.tv_nsec;
}

int main(int argc, char **argv) {
    if (argc != 3)
        return 2;
    uint32_t items = (uint32_t)atoi(argv[1]), rounds = (uint32_t)atoi(argv[2]);
    struct wheel wheel = {calloc(items + SLOTS, sizeof(struct entry)), calloc(items + 1, sizeof(uint64_t)), calloc(items, sizeof(uint32_t)), items, 0};
    if (wheel.entries == NULL || wheel.words == NULL || wheel.links == NULL)
        return 3;
    for (uint32_t place = 0; place < items + SLOTS; place++)
        wheel.entries[place] = (struct entry){0, place, place};
    uint32_t ticks = items / A_TICK > 0 ? items / A_TICK : 1;
    uint64_t times[4] = {0}, count = (uint64_t)items * rounds;
    for (uint32_t round = 0; round < rounds; round++) {
        uint64_t t0 = nanos();
        for (uint32_t item = 0; item < items; item++) arm(&wheel, item, 1 + item * 7u % ticks);
        uint64_t t1 = nanos();
        for (uint32_t item = 0; item < items; item++) modify(&wheel, item, 1 + item * 11u % ticks);
        uint64_t t2 = nanos();
        for (uint32_t item = 0; item < items; item++) cancel(&wheel, item);
        uint64_t t3 = nanos();
        for (uint32_t item = 0; item < items; item++) arm(&wheel, item, 1 + item * 7u % ticks);
        uint64_t t4 = nanos();
        for (uint32_t tick = 0; tick < ticks; tick++) advance(&wheel);
        uint64_t t5 = nanos();
        for (uint32_t item = 0; item < items; item++) atomic_store(&wheel.words[item], 0);
        times[0] += t1 - t0, times[1] += t2 - t1, times[2] += t3 - t2, times[3] += t5 - t4;
    }
    const char *names[4] = {"arm", "move", "cancel", "let go"};
    for (int kind = 0; kind < 4; kind++)
        printf("%s %" PRIu64 " nanos\n", names[kind], times[kind] / count);
    return 0;
}
