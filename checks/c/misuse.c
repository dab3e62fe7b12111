/* What the header finds out: memory that wq_init did not make a seat, or that is not aligned as one, a seat that was copied or moved, and
 * two calls in one seat at once. */
#include "check.h"
#include "wq.h"
#include <pthread.h>
#include <string.h>

static wq_seat owner, shared, vacant, blank;
static uint32_t number;
static wq_counts sums;

static void *both(void *given) {
    uint64_t *busy = given;
    for (uint32_t i = 0; i < 1000000; i++) {
        uint32_t code = wq_queue(&shared, i % 64);
        if (code == WQ_SEAT_BUSY) ++*busy;
        else CHECK(wq_is_queued(code) || code == WQ_PENDING);
    }
    return NULL;
}

/* Each call for a seat that is vacant, or for either. */
static void seats_are_refused(wq_seat *seat, uint32_t why) {
    CHECK(wq_build(seat, 1, 1, 1) == why);
    CHECK(wq_hand_out(seat, &vacant) == why);
    CHECK(wq_hand_out(&vacant, seat) == why);
    CHECK(wq_hand_out(seat, seat) == why);
    CHECK(wq_release(seat) == why);
    CHECK(wq_add_counts(seat, &sums) == why);
}

static void calls_of_a_sender_are_refused(wq_seat *seat, uint32_t why) {
    CHECK(wq_queue_tries(seat, 0, 1) == why);
    CHECK(wq_queue(seat, 0) == why);
    CHECK(wq_is_pending(seat, 0) == why);
    CHECK(wq_flush_begin(seat, 0) == why);
    CHECK(wq_flush_done(seat, 0) == why);
    CHECK(wq_request_stop(seat) == why);
    CHECK(wq_set_spins(seat, 128) == why);
    CHECK(wq_number(seat, &number) == why);
}

static void calls_of_the_owner_are_refused(wq_seat *seat, uint32_t why) {
    CHECK(wq_take(seat, &number) == why);
    CHECK(wq_close(seat, &number) == why);
    CHECK(wq_drain(seat, &number) == why);
    CHECK(wq_resume(seat) == why);
    CHECK(wq_next(seat, &number) == why);
    CHECK(wq_waiting(seat, &number) == why);
    CHECK(wq_begin(seat, &number) == why);
    CHECK(wq_end(seat) == why);
    CHECK(wq_rest(seat) == why);
    CHECK(wq_chain(seat, 0) == why);
    CHECK(wq_is_done(seat) == why);
}

/* Every call that takes a seat is refused for this one, and tells its caller nothing else: checks/c_api.sh looks that all are here. */
static void all_are_refused(wq_seat *seat, uint32_t why) {
    static const wq_counts none;
    number = 4711;
    seats_are_refused(seat, why);
    calls_of_a_sender_are_refused(seat, why);
    calls_of_the_owner_are_refused(seat, why);
    CHECK(number == 4711 && memcmp(&sums, &none, sizeof sums) == 0);
}

/* Memory as malloc may give it: no address between two multiples of what a seat is aligned by is one of a seat. Nothing is written there,
 * and a caller that passes the answer over is refused by the next call. */
static void unaligned_is_refused(void) {
    static wq_seat room[2], untouched[2];
    for (size_t at = sizeof(void *); at < WQ_SEAT_ALIGN; at += sizeof(void *)) {
        wq_seat *seat = (wq_seat *)(void *)(room[0].room + at);
        CHECK(wq_init(seat) == WQ_NO_SEAT);
        all_are_refused(seat, WQ_NO_SEAT);
    }
    CHECK(memcmp(room, untouched, sizeof room) == 0);
    CHECK(wq_init(room) == WQ_OK && wq_release(room) == WQ_OK);
}

/* A vacant seat may be moved, as by a realloc: it is no seat where it is then until it is made one there. */
static void moved_is_made_again(void) {
    static wq_seat before, after;
    uint32_t count;
    CHECK(wq_init(&before) == WQ_OK);
    memcpy(&after, &before, sizeof after);
    memset(&before, 0xff, sizeof before);
    all_are_refused(&after, WQ_NO_SEAT);
    CHECK(wq_init(&after) == WQ_OK && wq_build(&after, 1, 1, 1) == WQ_OK);
    CHECK(wq_close(&after, &count) == WQ_OK && count == 0 && wq_release(&after) == WQ_OK);
}

/* As while a call of another thread is in the seat: it is in it still when each was refused. */
static void all_are_refused_while_held(wq_seat *seat) {
    seat->held = 1;
    all_are_refused(seat, WQ_SEAT_BUSY);
    CHECK(seat->held == 1);
    seat->held = 0;
}

/* A hand-out that the owner's seat refuses has left the other seat, which it enters first. */
static void owner_is_refused(void) {
    CHECK(wq_hand_out(&blank, &vacant) == WQ_NO_SEAT && wq_release(&vacant) == WQ_OK);
    owner.held = 1;
    CHECK(wq_hand_out(&owner, &vacant) == WQ_SEAT_BUSY && wq_release(&vacant) == WQ_OK);
    owner.held = 0;
    CHECK(wq_hand_out(&owner, &vacant) == WQ_NO_SENDER && wq_release(&vacant) == WQ_OK);
}

int main(void) {
    static wq_seat copy, filled;
    uint64_t busy[2] = {0, 0};
    uint32_t n, count, ran = 0;
    pthread_t ids[2];
    CHECK(wq_init(&vacant) == WQ_OK);
    all_are_refused(&blank, WQ_NO_SEAT);
    memset(&filled, 0xff, sizeof filled);
    all_are_refused(&filled, WQ_NO_SEAT);
    CHECK(wq_init(&owner) == WQ_OK && wq_init(&shared) == WQ_OK);
    CHECK(wq_build(&owner, 64, 1, 1) == WQ_OK && wq_hand_out(&owner, &blank) == WQ_NO_SEAT && wq_hand_out(&owner, &shared) == WQ_OK);
    memcpy(&copy, &shared, sizeof copy);
    all_are_refused(&copy, WQ_NO_SEAT);
    unaligned_is_refused();
    moved_is_made_again();
    all_are_refused_while_held(&vacant);
    all_are_refused_while_held(&shared);
    all_are_refused_while_held(&owner);
    owner_is_refused();
    for (int i = 0; i < 2; i++) CHECK(pthread_create(&ids[i], NULL, both, &busy[i]) == 0);
    for (int i = 0; i < 2; i++) CHECK(pthread_join(ids[i], NULL) == 0);
    CHECK(wq_take(&owner, &count) == WQ_OK && count == 64);
    while (wq_begin(&owner, &n) == WQ_OK) {
        ran++;
        CHECK(wq_end(&owner) == WQ_OK);
    }
    CHECK(ran == count && wq_close(&owner, &n) == WQ_OK && wq_release(&owner) == WQ_OK && wq_release(&shared) == WQ_OK);
    puts("misuse: each is found out by its code");
    return 0;
}
