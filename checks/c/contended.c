/* contended [pauses]: a sender queues items with one try each, and the signal of a timer comes between: in it another sender queues an
 * item, and the owner executes all that waits. Where it comes between a push's look at the head and its exchange, the try is lost; the
 * item is not pending then, and the next try queues it. So it is of a barrier and of the stop item. A call of wq.h that makes the most
 * tries goes on after a lost one: it is never answered WQ_CONTENDED. With the word also that a sender passes as many pauses between two
 * tries as it was told; the kit's other compiler leaves pauses out, which do nothing. One thread does all of it, so it needs no second
 * processor. */
#include "check.h"
#include "wq.h"
#include <signal.h>
#include <string.h>
#include <sys/time.h>
#include <time.h>

enum { OWN = 4000, WANTED = 100, WANTED_EACH = 20, MICROSECONDS = 50, SECONDS = 40, MANY = 20000000 };

static wq_seat owner, sender, other;
static volatile uint64_t ran, others;
static uint64_t queued, lost;
static time_t late;
static int is_owning; /* whether the owner executes outside the signal, which then leaves its seat alone */

static void execute_all(void) {
    uint32_t n;
    while (wq_begin(&owner, &n) == WQ_OK) {
        ran++;
        CHECK(wq_end(&owner) == WQ_OK);
    }
}

static void arm(long microseconds) {
    struct itimerval once = {{0, 0}, {0, microseconds}};
    CHECK(setitimer(ITIMER_REAL, &once, NULL) == 0);
}

/* As wq.h wants of a handler, it makes no call in a seat in which a call was interrupted: never in the sender's, and in the owner's only
 * while is_owning is 0. Nor does any call of it take or free memory. */
static void interrupt(int number) {
    uint32_t n;
    CHECK(signal(number, interrupt) != SIG_ERR); /* a signal that is set by C99 alone is set once */
    if (__atomic_load_n(&is_owning, __ATOMIC_SEQ_CST)) {
        arm(MICROSECONDS);
        return;
    }
    CHECK(wq_is_queued(wq_queue_tries(&other, OWN, 1)));
    others++;
    CHECK(wq_take(&owner, &n) == WQ_OK && n > 0);
    execute_all();
    arm(MICROSECONDS);
}

static int is_lost(uint32_t item) {
    uint32_t code = wq_queue_tries(&sender, item, 1);
    if (code == WQ_PENDING) return 0;
    if (code == WQ_CONTENDED) {
        lost++;
        CHECK(wq_is_pending(&sender, item) == WQ_NO);
        return 1;
    }
    CHECK(wq_is_queued(code));
    queued++;
    return 0;
}

static int has_time(uint32_t turn) { return turn % OWN != 0 || time(NULL) < late; }

/* One try each. Of a barrier and of the stop item wq.h has no call for that. */
static uint32_t queue_once(void) { return wq_queue_tries(&sender, 0, 1); }
static uint32_t flush_once(void) { return (uint32_t)wq_c_flush_begin(sender.room, 0, 1); }
static uint32_t stop_once(void) { return (uint32_t)wq_c_request_stop(sender.room, 1); }

/* The calls of wq.h that make the most tries. */
static uint32_t queue_own(void) { return wq_queue(&sender, 0); }
static uint32_t flush(void) { return wq_flush_begin(&sender, 0); }
static uint32_t stop(void) { return wq_request_stop(&sender); }

static void own_all(void) {
    uint32_t n;
    __atomic_store_n(&is_owning, 1, __ATOMIC_SEQ_CST);
    CHECK(wq_take(&owner, &n) == WQ_OK);
    execute_all();
    __atomic_store_n(&is_owning, 0, __ATOMIC_SEQ_CST);
}

/* There is one of this number, so the owner executes it before it is queued again. It is queued behind an item: on an empty list the
 * head is after the signal what it was before, and the exchange is won. It is never pending: what was queued has begun, and what was
 * lost was given back. In each turn it is queued with one try and with the most, so that about as many of either are lost. */
static void lose_tries(uint32_t (*once)(void), uint32_t (*until)(void)) {
    uint32_t wanted = WANTED_EACH;
    own_all(); /* the item that is to be queued may wait */
    for (uint32_t turn = 0; wanted > 0 && has_time(turn); turn++) {
        while (is_lost(1 + turn % (OWN - 1))) { }
        uint32_t code = once();
        CHECK(code == WQ_CONTENDED || wq_is_queued(code));
        lost += code == WQ_CONTENDED;
        wanted -= code == WQ_CONTENDED;
        queued += wq_is_queued(code) != 0;
        own_all();
        while (is_lost(1 + turn % (OWN - 1))) { }
        CHECK(wq_is_queued(until()));
        queued++;
        own_all();
    }
    CHECK(wanted == 0);
}

/* How long a sender gives way is time alone, so only time tells it: a queueing with two tries that loses the first passes 40 million
 * pauses before the second, and no other takes a twentieth of a second of the processor. */
static void give_way(void) {
    const clock_t long_time = CLOCKS_PER_SEC / 20;
    clock_t spent = 0;
    CHECK(wq_set_spins(&sender, MANY) == WQ_OK);
    for (uint32_t turn = 0; spent < long_time && has_time(turn); turn++) {
        clock_t start = clock();
        uint32_t code = wq_queue_tries(&sender, turn % OWN, 2);
        spent = clock() - start;
        CHECK(code == WQ_CONTENDED || code == WQ_PENDING || wq_is_queued(code));
        lost += code == WQ_CONTENDED;
        queued += wq_is_queued(code) != 0;
    }
    CHECK(spent >= long_time);
}

int main(int argc, char **argv) {
    uint32_t n;
    CHECK(argc == 1 || !strcmp(argv[1], "pauses"));
    late = time(NULL) + SECONDS;
    wq_counts sums = {0};
    CHECK(wq_init(&owner) == WQ_OK && wq_init(&sender) == WQ_OK && wq_init(&other) == WQ_OK);
    CHECK(wq_build(&owner, OWN + 1, 1, 2) == WQ_OK && wq_hand_out(&owner, &sender) == WQ_OK && wq_hand_out(&owner, &other) == WQ_OK);
    CHECK(signal(SIGALRM, interrupt) != SIG_ERR);
    arm(MICROSECONDS);
    for (uint32_t turn = 0; lost < WANTED && has_time(turn); turn++)
        while (is_lost(turn % OWN)) { }
    CHECK(lost >= WANTED);
    lose_tries(queue_once, queue_own);
    lose_tries(flush_once, flush);
    lose_tries(stop_once, stop);
    if (argc > 1) give_way();
    CHECK(signal(SIGALRM, SIG_IGN) != SIG_ERR);
    CHECK(wq_close(&owner, &n) == WQ_OK);
    execute_all();
    CHECK(ran == queued + others);
    CHECK(wq_add_counts(&owner, &sums) == WQ_OK && wq_add_counts(&sender, &sums) == WQ_OK && wq_add_counts(&other, &sums) == WQ_OK);
    CHECK(wq_balances(&sums) && sums.contended == lost && sums.queued == queued + others);
    CHECK(wq_release(&sender) == WQ_OK && wq_release(&other) == WQ_OK && wq_release(&owner) == WQ_OK);
    printf("contended: %llu tries were lost to a signal, and nothing else\n", (unsigned long long)lost);
    return 0;
}
