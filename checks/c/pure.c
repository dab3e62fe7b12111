/* The checker of histories: each fault, with the place of the event that may not come; and one long history. */
#include "check.h"
#include "wq_pure.h"
#include <string.h>

enum { ITEMS = 4, BARRIERS = 1, SENDERS = 2, LONG = 100000 };

#define HOLD(s, k) {WQ_EVENT_HOLD, (s), (k)}
#define PUSH(s, k) {WQ_EVENT_PUSH, (s), (k)}
#define OWN(kind, k) {WQ_EVENT_##kind, 77, (k)} /* an owner's event has no sender, so that is not read */

/* The last of these events is at fault, and none before it. */
#define FAULT(fault, ...) do { \
    const wq_event told[] = {__VA_ARGS__}; \
    size_t count = sizeof told / sizeof *told, place = 99; \
    CHECK(wq_check_history(told, count - 1, ITEMS, BARRIERS, SENDERS, &place) == WQ_OK && place == 99); \
    CHECK(wq_check_history(told, count, ITEMS, BARRIERS, SENDERS, &place) == WQ_FAULT_##fault && place == count - 1); \
    CHECK(!strcmp(wq_fault_name(WQ_FAULT_##fault), #fault)); } while (0)

static void faults(void) {
    FAULT(NO_EVENT, HOLD(0, 2), {0, 0, 0});
    FAULT(NO_EVENT, {17, 0, 0});
    FAULT(NO_SENDER, HOLD(0, 2), HOLD(2, 1));
    FAULT(NO_NUMBER, HOLD(1, 5), HOLD(0, 6));
    FAULT(PENDING, HOLD(0, 2), HOLD(1, 2));
    FAULT(IDLE, {WQ_EVENT_BUSY, 0, 2});
    FAULT(NOT_HELD, HOLD(0, 2), PUSH(1, 2));
    FAULT(NOT_HELD, HOLD(0, 2), {WQ_EVENT_BACK_CONTENDED, 0, 2}, PUSH(0, 2));
    FAULT(CLOSED, HOLD(0, 2), OWN(CLOSE, 0), PUSH(0, 2));
    FAULT(CLOSED, OWN(CLOSE, 0), OWN(CLOSE, 0));
    FAULT(DRAINING, HOLD(0, 2), OWN(DRAIN, 0), {WQ_EVENT_BUSY, 1, 2}, PUSH(0, 2));
    FAULT(NOT_DRAINING, OWN(DRAIN, 0), OWN(RESUME, 0), OWN(RESUME, 0));
    FAULT(NEVER_DRAINED, HOLD(0, 2), {WQ_EVENT_BACK_DRAINING, 0, 2});
    FAULT(OPEN, HOLD(0, 2), {WQ_EVENT_BACK_CLOSED, 0, 2});
    FAULT(OPEN, OWN(CHAIN, 1));
    FAULT(RUNS, HOLD(0, 2), PUSH(0, 2), OWN(TAKE, 0), OWN(BEGIN, 2), OWN(BEGIN, 2));
    FAULT(NOTHING_RUNS, OWN(END, 2));
    FAULT(NOTHING_RUNS, OWN(CLOSE, 0), OWN(CHAIN_BUSY, 1));
    FAULT(NOT_WAITING, OWN(BEGIN, 2));
    FAULT(NEXT, HOLD(0, 2), HOLD(1, 3), PUSH(1, 3), PUSH(0, 2), OWN(TAKE, 0), OWN(BEGIN, 2));
    FAULT(NOT_ENDED, HOLD(0, 2), {WQ_EVENT_BACK_CANCELLED, 0, 2}, HOLD(0, 2), PUSH(0, 2), OWN(REST, 0));
}

static void sizes(void) {
    size_t place = 99;
    CHECK(wq_check_history(NULL, 0, 1, 1, 1, &place) == WQ_OK && wq_check_history(NULL, 0, 65536, 16, 64, NULL) == WQ_OK);
    CHECK(wq_check_history(NULL, 0, 0, 0, 1, &place) == WQ_ITEMS && wq_check_history(NULL, 0, 65537, 1, 1, &place) == WQ_ITEMS);
    CHECK(wq_check_history(NULL, 0, 1, 0, 0, &place) == WQ_BARRIERS && wq_check_history(NULL, 0, 1, 17, 1, &place) == WQ_BARRIERS);
    CHECK(wq_check_history(NULL, 0, 1, 1, 0, &place) == WQ_SENDERS && wq_check_history(NULL, 0, 1, 1, 65, &place) == WQ_SENDERS);
    CHECK(place == 99 && !strcmp(wq_fault_name(WQ_SENDERS), "SENDERS") && !strcmp(wq_fault_name(112), "?"));
}

/* A number is queued and runs, again and again. */
static void at_length(void) {
    static const wq_event round[] = {HOLD(0, 1), PUSH(0, 1), OWN(TAKE, 0), OWN(BEGIN, 1), OWN(END, 1)};
    enum { EACH = sizeof round / sizeof *round };
    static wq_event events[LONG * EACH + 1];
    size_t place = 0;
    for (size_t at = 0; at < LONG * EACH; at++) events[at] = round[at % EACH];
    CHECK(wq_check_history(events, LONG * EACH, ITEMS, BARRIERS, SENDERS, &place) == WQ_OK);
    CHECK(wq_check_history(events, LONG * EACH + 1, ITEMS, BARRIERS, SENDERS, &place) == WQ_FAULT_NO_EVENT && place == LONG * EACH);
    CHECK(wq_check_history(events + 1, LONG * EACH - 1, ITEMS, BARRIERS, SENDERS, NULL) == WQ_FAULT_NOT_HELD);
}

int main(void) {
    faults();
    sizes();
    at_length();
    puts("pure: each fault at its place");
    return 0;
}
