/* Each code of each call that comes to one thread that has memory. WQ_MEMORY comes in memory.c, WQ_CONTENDED in contended.c,
 * WQ_NO_SEAT and WQ_SEAT_BUSY in misuse.c, and WQ_SEAT_SIZE in refusals.c. */
#include "check.h"
#include "wq.h"
#include <string.h>

static wq_seat owner, one, two;

static void before_a_queue(void) {
    uint32_t n = 77;
    CHECK(wq_c_seat_size() <= WQ_SEAT_BYTES && wq_c_seat_align() >= sizeof(void *)); /* a seat has addresses in it */
#ifdef WQ_UNCHECKED
    CHECK(sizeof(wq_seat) == 256);
#else
    CHECK(sizeof(wq_seat) == 384);
#endif
    CHECK(wq_init(&owner) == WQ_OK && wq_init(&one) == WQ_OK && wq_init(&two) == WQ_OK);
    CHECK(wq_queue(&one, 0) == WQ_NOT_SENDER && wq_is_pending(&one, 0) == WQ_NOT_SENDER && wq_request_stop(&one) == WQ_NOT_SENDER);
    CHECK(wq_flush_begin(&one, 0) == WQ_NOT_SENDER && wq_flush_done(&one, 0) == WQ_NOT_SENDER && wq_number(&one, &n) == WQ_NOT_SENDER);
    CHECK(wq_set_spins(&one, 128) == WQ_NOT_SENDER && wq_queue_tries(&one, 0, 1) == WQ_NOT_SENDER);
    CHECK(wq_take(&one, &n) == WQ_NOT_OWNER && wq_close(&one, &n) == WQ_NOT_OWNER && wq_drain(&one, &n) == WQ_NOT_OWNER);
    CHECK(wq_resume(&one) == WQ_NOT_OWNER && wq_next(&one, &n) == WQ_NOT_OWNER && wq_waiting(&one, &n) == WQ_NOT_OWNER);
    CHECK(wq_begin(&one, &n) == WQ_NOT_OWNER && wq_end(&one) == WQ_NOT_OWNER && wq_rest(&one) == WQ_NOT_OWNER);
    CHECK(wq_chain(&one, 0) == WQ_NOT_OWNER && wq_is_done(&one) == WQ_NOT_OWNER && wq_hand_out(&one, &two) == WQ_NOT_OWNER);
    CHECK(n == 77);
    CHECK(wq_build(&owner, 0, 1, 1) == WQ_ITEMS && wq_build(&owner, 65537, 0, 0) == WQ_ITEMS);
    CHECK(wq_build(&owner, 1, 0, 65) == WQ_BARRIERS && wq_build(&owner, 65536, 17, 1) == WQ_BARRIERS);
    CHECK(wq_build(&owner, 1, 1, 0) == WQ_SENDERS && wq_build(&owner, 1, 16, 65) == WQ_SENDERS);
}

static void handing_out(void) {
    uint32_t n = 77;
    CHECK(wq_build(&owner, 4, 1, 1) == WQ_OK && wq_build(&owner, 4, 1, 1) == WQ_IN_USE);
    CHECK(wq_hand_out(&owner, &owner) == WQ_IN_USE && wq_hand_out(&two, &two) == WQ_IN_USE && wq_release(&two) == WQ_OK);
    CHECK(wq_hand_out(&owner, &one) == WQ_OK && wq_hand_out(&owner, &one) == WQ_IN_USE && wq_hand_out(&owner, &two) == WQ_NO_SENDER);
    CHECK(wq_build(&one, 4, 1, 1) == WQ_IN_USE && wq_hand_out(&one, &two) == WQ_NOT_OWNER);
    CHECK(wq_number(&one, &n) == WQ_OK && n == 0 && wq_number(&owner, &n) == WQ_NOT_SENDER);
    CHECK(wq_queue(&owner, 0) == WQ_NOT_SENDER && wq_take(&one, &n) == WQ_NOT_OWNER);
    CHECK(wq_set_spins(&owner, 128) == WQ_NOT_SENDER);
    CHECK(wq_rest(&owner) == WQ_NO); /* a new queue rests already */
}

static void sending(void) {
    CHECK(wq_set_spins(&one, UINT32_MAX) == WQ_OK && wq_set_spins(&one, 0) == WQ_OK); /* and all goes on as it did */
    CHECK(wq_queue(&one, 4) == WQ_NO_ITEM && wq_queue(&one, UINT32_MAX) == WQ_NO_ITEM && wq_queue_tries(&one, 4, 0) == WQ_NO_ITEM);
    CHECK(wq_queue_tries(&one, 0, 0) == WQ_NO_TRIES && wq_is_pending(&one, 0) == WQ_NO && wq_is_pending(&one, 4) == WQ_NO_ITEM);
    CHECK(wq_queue(&one, 2) == (WQ_QUEUED | WQ_FIRST | WQ_WAKES) && wq_queue(&one, 2) == WQ_PENDING);
    CHECK(wq_is_pending(&one, 2) == WQ_YES && wq_queue(&one, 0) == WQ_QUEUED);
    CHECK(wq_queue(&one, 0) == WQ_PENDING && wq_queue_tries(&one, 0, 1) == WQ_PENDING);
    CHECK(wq_flush_begin(&one, 1) == WQ_NO_BARRIER && wq_flush_done(&one, 1) == WQ_NO_BARRIER);
    /* wq.h gives these two the most tries, so only the exports can be given none */
    CHECK(wq_c_flush_begin(one.room, 0, 0) == WQ_NO_TRIES && wq_c_flush_begin(one.room, 1, 0) == WQ_NO_BARRIER);
    CHECK(wq_c_request_stop(one.room, 0) == WQ_NO_TRIES && wq_flush_done(&one, 0) == WQ_YES);
}

static void executing(void) {
    uint32_t n = 77;
    CHECK(wq_begin(&owner, &n) == WQ_NONE_WAITS && wq_end(&owner) == WQ_NONE_RUNS && wq_next(&owner, &n) == WQ_NONE_WAITS && n == 77);
    CHECK(wq_chain(&owner, 1) == WQ_IS_OPEN && wq_chain(&owner, 4) == WQ_NO_ITEM && wq_resume(&owner) == WQ_NOT_DRAINING);
    CHECK(wq_release(&owner) == WQ_NOT_DONE && wq_is_done(&owner) == WQ_NO);
    CHECK(wq_take(&owner, &n) == WQ_OK && n == 2);
    CHECK(wq_take(&owner, &n) == WQ_SOME_WAIT && wq_rest(&owner) == WQ_SOME_WAIT);
    CHECK(wq_waiting(&owner, &n) == WQ_OK && n == 2 && wq_next(&owner, &n) == WQ_OK && n == 2);
    CHECK(wq_begin(&owner, &n) == WQ_OK && n == 2 && wq_begin(&owner, &n) == WQ_IS_RUNNING && wq_is_pending(&one, 2) == WQ_NO);
    CHECK(wq_waiting(&owner, &n) == WQ_OK && n == 1 && wq_next(&owner, &n) == WQ_OK && n == 0);
    CHECK(wq_end(&owner) == WQ_OK && wq_end(&owner) == WQ_NONE_RUNS);
    CHECK(wq_begin(&owner, &n) == WQ_OK && n == 0 && wq_rest(&owner) == WQ_IS_RUNNING && wq_end(&owner) == WQ_OK);
    n = 77;
    CHECK(wq_next(&owner, &n) == WQ_NONE_WAITS && n == 77 && wq_waiting(&owner, &n) == WQ_OK && n == 0);
    CHECK(wq_rest(&owner) == WQ_YES && wq_rest(&owner) == WQ_NO);
    CHECK(wq_flush_begin(&one, 0) == (WQ_QUEUED | WQ_FIRST | WQ_WAKES) && wq_flush_done(&one, 0) == WQ_NO);
    CHECK(wq_flush_begin(&one, 0) == WQ_PENDING && wq_flush_done(&one, 0) == WQ_NO);
    CHECK(wq_rest(&owner) == WQ_NO && wq_take(&owner, &n) == WQ_OK && n == 1);
    CHECK(wq_begin(&owner, &n) == WQ_OK && n == 4 && wq_end(&owner) == WQ_OK && wq_flush_done(&one, 0) == WQ_YES);
}

static void executes(uint32_t number) {
    uint32_t n;
    CHECK(wq_begin(&owner, &n) == WQ_OK && n == number && wq_end(&owner) == WQ_OK);
}

/* Each answer of a barrier and of the stop item that an item has. */
static void accepting(void) {
    uint32_t n;
    CHECK(wq_flush_begin(&one, 0) == (WQ_QUEUED | WQ_FIRST) && wq_request_stop(&one) == WQ_QUEUED);
    CHECK(wq_flush_begin(&one, 0) == WQ_PENDING && wq_request_stop(&one) == WQ_PENDING && wq_queue_tries(&one, 3, 1) == WQ_QUEUED);
    CHECK(wq_take(&owner, &n) == WQ_OK && n == 3);
    executes(4);
    executes(5);
    executes(3);
    CHECK(wq_rest(&owner) == WQ_YES);
    CHECK(wq_request_stop(&one) == (WQ_QUEUED | WQ_FIRST | WQ_WAKES) && wq_flush_begin(&one, 0) == WQ_QUEUED);
    CHECK(wq_take(&owner, &n) == WQ_OK && n == 2);
    executes(5);
    executes(4);
}

static void draining(void) {
    uint32_t n = 77;
    CHECK(wq_set_spins(&one, 512) == WQ_OK);
    CHECK(wq_queue(&one, 1) == (WQ_QUEUED | WQ_FIRST) && wq_drain(&owner, &n) == WQ_OK && n == 1);
    CHECK(wq_drain(&owner, &n) == WQ_IS_DRAINING && wq_take(&owner, &n) == WQ_IS_DRAINING && wq_rest(&owner) == WQ_IS_DRAINING);
    CHECK(wq_queue(&one, 2) == WQ_DRAINING && wq_is_pending(&one, 2) == WQ_NO && wq_resume(&owner) == WQ_SOME_WAIT);
    CHECK(wq_queue_tries(&one, 2, 1) == WQ_DRAINING && wq_queue_tries(&one, 2, WQ_MOST_TRIES) == WQ_DRAINING);
    CHECK(wq_flush_begin(&one, 0) == WQ_DRAINING && wq_flush_done(&one, 0) == WQ_YES && wq_request_stop(&one) == WQ_DRAINING);
    CHECK(wq_chain(&owner, 3) == WQ_NONE_RUNS && wq_begin(&owner, &n) == WQ_OK && n == 1 && wq_resume(&owner) == WQ_IS_RUNNING);
    CHECK(wq_chain(&owner, 3) == WQ_QUEUED && wq_chain(&owner, 3) == WQ_PENDING && wq_end(&owner) == WQ_OK);
    CHECK(wq_begin(&owner, &n) == WQ_OK && n == 3 && wq_end(&owner) == WQ_OK && wq_release(&owner) == WQ_NOT_DONE);
    CHECK(wq_resume(&owner) == WQ_OK && wq_resume(&owner) == WQ_NOT_DRAINING);
    CHECK(wq_queue(&one, 2) == (WQ_QUEUED | WQ_FIRST) && wq_take(&owner, &n) == WQ_OK && n == 1);
    CHECK(wq_begin(&owner, &n) == WQ_OK && n == 2 && wq_end(&owner) == WQ_OK);
}

/* What the seats of the queue have counted by then, each alone and all together. No two counts of a seat are the same, so that each
 * is seen to stand in its own place. */
static void counting(void) {
    wq_counts sent = {0}, ran = {0}, sums = {0};
    CHECK(wq_add_counts(&one, &sent) == WQ_OK && wq_add_counts(&owner, &ran) == WQ_OK);
    CHECK(sent.queued == 11 && sent.pending == 7 && sent.closed == 4 && sent.draining == 5 && sent.contended == 0);
    CHECK(sent.chained == 0 && sent.chain_pending == 0 && sent.executed == 0 && !wq_balances(&sent));
    CHECK(ran.chained == 2 && ran.chain_pending == 1 && ran.executed == 13 && ran.queued == 0 && ran.pending == 0 && !wq_balances(&ran));
    CHECK(wq_add_counts(&two, &sums) == WQ_OK && sums.queued == 0 && sums.executed == 0 && wq_balances(&sums));
    CHECK(wq_add_counts(&one, &sums) == WQ_OK && wq_add_counts(&owner, &sums) == WQ_OK && wq_balances(&sums));
    CHECK(sums.queued == 11 && sums.chained == 2 && sums.executed == 13 && sums.pending == 7 && sums.closed == 4 && sums.draining == 5);
    CHECK(wq_c_count(one.room, 8) == 0 && wq_c_count(one.room, UINT32_MAX) == 0 && wq_c_count(owner.room, 8) == 0);
}

static void closing(void) {
    uint32_t n = 77;
    CHECK(wq_request_stop(&one) == (WQ_QUEUED | WQ_FIRST) && wq_request_stop(&one) == WQ_PENDING);
    CHECK(wq_close(&owner, &n) == WQ_OK && n == 1 && wq_close(&owner, &n) == WQ_IS_CLOSED && wq_drain(&owner, &n) == WQ_IS_CLOSED);
    CHECK(wq_take(&owner, &n) == WQ_IS_CLOSED && wq_rest(&owner) == WQ_IS_CLOSED && wq_resume(&owner) == WQ_NOT_DRAINING);
    CHECK(wq_queue(&one, 1) == WQ_CLOSED && wq_is_pending(&one, 1) == WQ_NO && wq_flush_begin(&one, 0) == WQ_CLOSED);
    CHECK(wq_queue_tries(&one, 1, 1) == WQ_CLOSED);
    CHECK(wq_begin(&owner, &n) == WQ_OK && n == 5 && wq_request_stop(&one) == WQ_CLOSED && wq_chain(&owner, 3) == WQ_QUEUED);
    CHECK(wq_end(&owner) == WQ_OK && wq_is_done(&owner) == WQ_NO && wq_release(&owner) == WQ_NOT_DONE);
    CHECK(wq_begin(&owner, &n) == WQ_OK && n == 3 && wq_end(&owner) == WQ_OK && wq_is_done(&owner) == WQ_YES);
    counting();
    CHECK(wq_release(&owner) == WQ_OK && wq_release(&owner) == WQ_OK && wq_take(&owner, &n) == WQ_NOT_OWNER);
    CHECK(wq_queue(&one, 1) == WQ_CLOSED && wq_release(&one) == WQ_OK && wq_queue(&one, 1) == WQ_NOT_SENDER);
    CHECK(wq_set_spins(&one, 512) == WQ_NOT_SENDER);
    CHECK(wq_build(&one, 1, 1, 1) == WQ_OK && wq_close(&one, &n) == WQ_OK && n == 0 && wq_release(&one) == WQ_OK);
}

/* Only the answers of a queueing that was accepted are queueings, though others share their bits. */
static void bits(void) {
    for (uint32_t code = 0; code < 256; code++) {
        CHECK(wq_is_queued(code) == (code == 1 || code == 3 || code == 5 || code == 7));
        CHECK(wq_wakes(code) == (code == 5 || code == 7));
    }
}

/* They count time, so nothing but their bounds is the same each time. */
static void spins(void) {
    for (int i = 0; i < 4; i++) {
        uint32_t count = wq_measured_spins();
        CHECK(count >= 8 && count <= 512);
    }
}

static int is_named(uint32_t code, const char *name) { return !strcmp(wq_code_name(code), name); }
#define NAMED(code) CHECK(is_named(WQ_##code, #code))

static void names_of_answers(void) {
    NAMED(OK);
    NAMED(QUEUED);
    CHECK(is_named(WQ_QUEUED | WQ_FIRST, "QUEUED|FIRST") && is_named(WQ_QUEUED | WQ_WAKES, "QUEUED|WAKES"));
    CHECK(is_named(WQ_QUEUED | WQ_FIRST | WQ_WAKES, "QUEUED|FIRST|WAKES"));
    NAMED(PENDING);
    NAMED(CLOSED);
    NAMED(DRAINING);
    NAMED(CONTENDED);
    NAMED(NO);
    NAMED(YES);
}

static void names_of_errors(void) {
    NAMED(NOT_SENDER);
    NAMED(NOT_OWNER);
    NAMED(NO_ITEM);
    NAMED(NO_BARRIER);
    NAMED(NO_TRIES);
    NAMED(IS_CLOSED);
    NAMED(IS_DRAINING);
    NAMED(NOT_DRAINING);
    NAMED(IS_OPEN);
    NAMED(SOME_WAIT);
    NAMED(NONE_WAITS);
    NAMED(IS_RUNNING);
    NAMED(NONE_RUNS);
    NAMED(IN_USE);
    NAMED(NO_SENDER);
    NAMED(NOT_DONE);
    NAMED(MEMORY);
    NAMED(ITEMS);
    NAMED(BARRIERS);
    NAMED(SENDERS);
}

static void names_of_what_is_found(void) {
    NAMED(SEAT_BUSY);
    NAMED(NO_SEAT);
    NAMED(SEAT_SIZE);
    NAMED(NO_THREAD);
}

/* Each code has a name of its own, so that all others have none. */
static void names(void) {
    uint32_t named = 0;
    names_of_answers();
    names_of_errors();
    names_of_what_is_found();
    for (uint32_t code = 0; code < 256; code++) named += !is_named(code, "?");
    CHECK(named == 11 + 20 + 4 && is_named(WQ_FIRST, "?") && is_named(WQ_WAKES, "?") && is_named(UINT32_MAX, "?"));
}

/* A seat of each kind writes nothing behind as many bytes as the library says that a seat takes. */
static void within_its_room(void) {
    static unsigned char rooms[2][2 * WQ_SEAT_BYTES] __attribute__((aligned(128)));
    size_t size = wq_c_seat_size();
    memset(rooms, 0xa5, sizeof rooms);
    wq_c_init(rooms[0]);
    wq_c_init(rooms[1]);
    CHECK((uint32_t)wq_c_build(rooms[0], 4, 1, 1) == WQ_OK && (uint32_t)wq_c_hand_out(rooms[0], rooms[1]) == WQ_OK);
    CHECK(wq_is_queued((uint32_t)wq_c_queue(rooms[1], 2, 1)) && (uint32_t)wq_c_close(rooms[0]) == WQ_OK);
    CHECK((uint32_t)wq_c_begin(rooms[0]) == WQ_OK && (uint32_t)wq_c_end(rooms[0]) == WQ_OK);
    for (size_t at = size; at < sizeof rooms[0]; at++) CHECK(rooms[0][at] == 0xa5 && rooms[1][at] == 0xa5);
    CHECK((uint32_t)wq_c_release(rooms[0]) == WQ_OK && (uint32_t)wq_c_release(rooms[1]) == WQ_OK);
}

int main(void) {
    within_its_room();
    before_a_queue();
    handing_out();
    sending();
    executing();
    accepting();
    draining();
    closing();
    bits();
    spins();
    names();
    puts("codes: each as it is said");
    return 0;
}
