/* threads ROUNDS: four POSIX threads queue 64 items each, so many times. Each sender's items run in its order, plain memory is handed
 * over, the owner sleeps and is woken on WQ_WAKES alone, and at the end all that the senders counted is what the owner executed. */
#include "check.h"
#include "wq.h"
#include <pthread.h>
#include <sched.h>
#include <sys/eventfd.h>
#include <unistd.h>

enum { SENDERS = 4, OWN = 64 };

struct post {
    wq_seat seat;
    int wake;
    uint32_t number;
    uint64_t queued, woke;
};

static uint64_t rounds;
/* Written before a queueing, and read while the item runs. There are two in turn: the PENDING bit is clear as soon as an execution
 * begins, so the next round may be written while it runs. */
static struct { uint64_t given[2], ran; } payload[SENDERS * OWN];
static struct post posts[SENDERS];
static uint64_t ran[SENDERS];

static void queue_one(struct post *post, uint32_t item, uint64_t round) {
    uint32_t code;
    while (wq_is_pending(&post->seat, item) == WQ_YES) sched_yield();
    payload[item].given[round & 1] = round + 1;
    while ((code = wq_queue(&post->seat, item)) == WQ_CONTENDED) sched_yield();
    CHECK(wq_is_queued(code));
    post->queued++;
    if (code & WQ_WAKES) {
        uint64_t one = 1;
        post->woke++;
        CHECK(write(post->wake, &one, sizeof one) == sizeof one);
    }
}

static void *feed(void *given) {
    struct post *post = given;
    for (uint64_t round = 0; round < rounds; round++)
        for (uint32_t own = 0; own < OWN; own++) queue_one(post, post->number * OWN + own, round);
    return NULL;
}

static void execute_all(wq_seat *owner, uint64_t *all) {
    uint32_t n;
    while (wq_begin(owner, &n) == WQ_OK) {
        uint32_t sender = n / OWN;
        CHECK(n % OWN == ran[sender] % OWN);
        CHECK(payload[n].given[payload[n].ran & 1] == payload[n].ran + 1);
        payload[n].ran++;
        ran[sender]++;
        ++*all;
        CHECK(wq_end(owner) == WQ_OK);
    }
}

int main(int argc, char **argv) {
    static wq_seat owner;
    pthread_t ids[SENDERS];
    int wake = eventfd(0, 0);
    const uint32_t spins[SENDERS] = {0, 8, 512, wq_measured_spins()}; /* however long each gives way */
    uint64_t all = 0, sleeps = 0, woke = 0;
    uint32_t n;
    CHECK(argc == 2 && wake >= 0);
    rounds = strtoull(argv[1], NULL, 10);
    CHECK(wq_init(&owner) == WQ_OK && wq_build(&owner, SENDERS * OWN, 1, SENDERS) == WQ_OK);
    for (int i = 0; i < SENDERS; i++) {
        CHECK(wq_init(&posts[i].seat) == WQ_OK && wq_hand_out(&owner, &posts[i].seat) == WQ_OK);
        CHECK(wq_number(&posts[i].seat, &posts[i].number) == WQ_OK && posts[i].number == (uint32_t)(SENDERS - 1 - i));
        CHECK(wq_set_spins(&posts[i].seat, spins[i]) == WQ_OK);
        posts[i].wake = wake;
    }
    for (int i = 0; i < SENDERS; i++) CHECK(pthread_create(&ids[i], NULL, feed, &posts[i]) == 0);
    while (all < SENDERS * OWN * rounds) {
        uint64_t woken;
        CHECK(wq_take(&owner, &n) == WQ_OK);
        execute_all(&owner, &all);
        if (all < SENDERS * OWN * rounds && wq_rest(&owner) == WQ_YES) {
            sleeps++;
            CHECK(read(wake, &woken, sizeof woken) == sizeof woken);
        }
    }
    for (int i = 0; i < SENDERS; i++) {
        CHECK(pthread_join(ids[i], NULL) == 0 && posts[i].queued == ran[posts[i].number]);
        woke += posts[i].woke;
    }
    CHECK(woke == sleeps || woke == sleeps + 1);
    CHECK(wq_close(&owner, &n) == WQ_OK && n == 0 && wq_is_done(&owner) == WQ_YES);
    wq_counts sums = {0};
    CHECK(wq_add_counts(&owner, &sums) == WQ_OK && sums.executed == all);
    for (int i = 0; i < SENDERS; i++) CHECK(!wq_balances(&sums) && wq_add_counts(&posts[i].seat, &sums) == WQ_OK);
    CHECK(wq_balances(&sums));
    for (int i = 0; i < SENDERS; i++) CHECK(wq_queue(&posts[i].seat, 0) == WQ_CLOSED && wq_release(&posts[i].seat) == WQ_OK);
    CHECK(wq_release(&owner) == WQ_OK);
    printf("threads: %llu items ran, each sender's in its order\n", (unsigned long long)all);
    return 0;
}
