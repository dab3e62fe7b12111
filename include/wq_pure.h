/* Calls that want no queue: the proved checker of histories. docs/C.md says how to use it.
 *
 * Any thread may call it, also two at once, but no signal handler. It takes memory for the size of the queue, and gives it back before
 * it returns; the allocator may take a lock.
 */
#ifndef WQ_PURE_H
#define WQ_PURE_H
#include "wq.h"

#ifdef __cplusplus
extern "C" {
#endif

/* Kinds of events. The first seven are of a sender, all others of the owner; TAKE, CLOSE, DRAIN, RESUME and REST have no number.
 * What an event does not have is not read. */
enum wq_kind {
    WQ_EVENT_HOLD = 1,      /* the sender found the PENDING bit clear, and set it */
    WQ_EVENT_BUSY = 2,      /* the sender found it set: the queueing is answered PENDING */
    WQ_EVENT_PUSH = 3,      /* the sender put the number that it holds on the list */
    WQ_EVENT_BACK_CLOSED = 4, WQ_EVENT_BACK_CONTENDED = 5, WQ_EVENT_BACK_CANCELLED = 6, WQ_EVENT_BACK_DRAINING = 7, /* it gave it back */
    WQ_EVENT_TAKE = 8, WQ_EVENT_CLOSE = 9, WQ_EVENT_DRAIN = 10, WQ_EVENT_RESUME = 11,
    WQ_EVENT_BEGIN = 12,    /* the PENDING bit is clear, and the execution begins */
    WQ_EVENT_END = 13,
    WQ_EVENT_CHAIN = 14,    /* the execution that runs queued the number, while the queue was closed or drained */
    WQ_EVENT_CHAIN_BUSY = 15,
    WQ_EVENT_REST = 16
};

typedef struct wq_event {
    uint32_t kind, sender, number;
} wq_event;

/* Why an event may not come: its kind is none, its sender or number none of the queue's, or what the events before it say against it.
 * WQ_FAULT_NO_NUMBER is also that of a barrier or the stop item that is chained. */
enum wq_fault {
    WQ_FAULT_NO_EVENT = 96, WQ_FAULT_NO_SENDER = 97, WQ_FAULT_NO_NUMBER = 98,
    WQ_FAULT_PENDING = 99, WQ_FAULT_IDLE = 100,    /* the PENDING bit is set, is clear */
    WQ_FAULT_NOT_HELD = 101,                       /* the sender does not hold the number */
    WQ_FAULT_CLOSED = 102, WQ_FAULT_DRAINING = 103, WQ_FAULT_NOT_DRAINING = 104,
    WQ_FAULT_NEVER_DRAINED = 105,                  /* no drain has begun */
    WQ_FAULT_OPEN = 106,                           /* the queue neither is closed nor drains; of a BACK_CLOSED, it is not closed */
    WQ_FAULT_RUNS = 107, WQ_FAULT_NOTHING_RUNS = 108, /* a number runs (of an END, another one), none does */
    WQ_FAULT_NOT_WAITING = 109, WQ_FAULT_NEXT = 110,  /* the number does not wait, another is the next to begin */
    WQ_FAULT_NOT_ENDED = 111                       /* something accepted has not ended */
};

/* As wq_code_name, and of faults. */
static inline const char *wq_fault_name(uint32_t code) {
    static const char *const faults[] = {"NO_EVENT", "NO_SENDER", "NO_NUMBER", "PENDING", "IDLE", "NOT_HELD", "CLOSED", "DRAINING",
        "NOT_DRAINING", "NEVER_DRAINED", "OPEN", "RUNS", "NOTHING_RUNS", "NOT_WAITING", "NEXT", "NOT_ENDED"};
    return code >= WQ_FAULT_NO_EVENT && code <= WQ_FAULT_NOT_ENDED ? faults[code - WQ_FAULT_NO_EVENT] : wq_code_name(code);
}

/* The proved export. Neither address is NULL, also where the count is 0; wq_check_history sees to that. */
uint32_t wq_c_check_history(const wq_event *events, size_t count, uint32_t items, uint32_t barriers, uint32_t senders, size_t *place);

/* Whether these events, oldest first, are a legal history of a queue of this size: executions follow the order of acceptance, each at
 * most once, and one at a time; what is accepted may still wait. WQ_OK where they are; WQ_ITEMS, WQ_BARRIERS, WQ_SENDERS or WQ_MEMORY;
 * else the fault of the first event that may not come, whose place, counted from 0, goes to place, which may be NULL. So may events where
 * the count is 0. There are as many as the count says, and nobody writes them meanwhile. Takes time in the count. */
static inline uint32_t wq_check_history(
    const wq_event *events, size_t count, uint32_t items, uint32_t barriers, uint32_t senders, size_t *place) {
    static const wq_event none = {0, 0, 0};
    size_t at = 0;
    uint32_t code = wq_c_check_history(count ? events : &none, count, items, barriers, senders, &at);
    if (place && code >= WQ_FAULT_NO_EVENT) *place = at;
    return code;
}

#ifdef __cplusplus
}
#endif
#endif
