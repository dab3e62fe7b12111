// The headers in C++: a queue, a worker that executes one item, what the seats have counted, and a history.
#include "wq_pure.h"
#include "wq_worker.h"
#include <cstdio>

static wq_seat owner, sender;
static uint32_t ran;

int main() {
    wq_worker worker = {};
    if (wq_init(&owner) || wq_init(&sender) || wq_build(&owner, 1, 1, 1) || wq_hand_out(&owner, &sender)) return 1;
    if (wq_worker_start(&worker, &owner, 1, [](uint32_t item, void *) { ran += item + 1; }, nullptr)) return 1;
    if (!wq_is_queued(wq_worker_queue(&worker, &sender, 0)) || !wq_is_queued(wq_worker_flush(&worker, &sender, 0)) || ran != 1) return 1;
    wq_counts sums = {};
    wq_worker_finish(&worker);
    if (wq_add_counts(&owner, &sums) || wq_add_counts(&sender, &sums) || !wq_balances(&sums) || sums.executed != 2) return 1;
    if (wq_release(&owner) || wq_release(&sender)) return 1;
    const wq_event told[] = {{WQ_EVENT_HOLD, 0, 0}, {WQ_EVENT_HOLD, 0, 0}};
    size_t place = 0;
    if (wq_check_history(told, 1, 1, 1, 1, &place) || wq_check_history(told, 2, 1, 1, 1, &place) != WQ_FAULT_PENDING || place != 1) return 1;
    std::puts("c++: one item ran");
    return 0;
}
