/* What no call alone brings about: a library whose seat is larger than the header's room, or aligned by more, a system that starts
 * no thread, and one that joins none. Link with -Wl,--wrap=wq_c_seat_size,--wrap=wq_c_seat_align and
 * -Wl,--wrap=pthread_create,--wrap=pthread_join. */
#include "check.h"
#include "wq_worker.h"
#include <errno.h>

static size_t seat_size, seat_align;

size_t __wrap_wq_c_seat_size(void) { return seat_size; }
size_t __wrap_wq_c_seat_align(void) { return seat_align; }

size_t __real_wq_c_seat_size(void);
size_t __real_wq_c_seat_align(void);

static int starts, joins; /* whether the system starts a thread, and joins one */

int __real_pthread_create(pthread_t *thread, const pthread_attr_t *attributes, void *(*run)(void *), void *given);
int __real_pthread_join(pthread_t thread, void **left);

int __wrap_pthread_create(pthread_t *thread, const pthread_attr_t *attributes, void *(*run)(void *), void *given) {
    return starts ? __real_pthread_create(thread, attributes, run, given) : EAGAIN;
}

int __wrap_pthread_join(pthread_t thread, void **left) {
    CHECK(starts); /* else there is none to join */
    return joins ? __real_pthread_join(thread, left) : EDEADLK;
}

static wq_seat owner, sender;

static void no_seat_that_does_not_fit(void) {
    seat_size = WQ_SEAT_BYTES + 1;
    seat_align = 128;
    CHECK(wq_init(&owner) == WQ_SEAT_SIZE && wq_build(&owner, 1, 1, 1) == WQ_NO_SEAT);
    seat_size = WQ_SEAT_BYTES;
    seat_align = 256;
    CHECK(wq_init(&owner) == WQ_SEAT_SIZE && wq_build(&owner, 1, 1, 1) == WQ_NO_SEAT);
    seat_size = __real_wq_c_seat_size();
    seat_align = __real_wq_c_seat_align();
    CHECK(wq_init(&owner) == WQ_OK && wq_init(&sender) == WQ_OK);
}

static void run(uint32_t item, void *data) {
    (void)item, (void)data;
    CHECK(!"nothing runs");
}

static void no_thread(void) {
    wq_worker worker = {0}; /* on the stack */
    uint32_t number;
    CHECK(wq_build(&owner, 4, 1, 1) == WQ_OK && wq_hand_out(&owner, &sender) == WQ_OK);
    CHECK(wq_queue(&sender, 2) == (WQ_QUEUED | WQ_FIRST | WQ_WAKES));
    CHECK(wq_worker_start(&worker, &owner, 4, run, NULL) == WQ_NO_THREAD);
    /* there is no thread to join, the queue is as it was, and the owner executes it without a worker */
    CHECK(wq_worker_stop(&worker) == WQ_NOT_DONE && wq_worker_start(&worker, &owner, 4, run, NULL) == WQ_NO_THREAD);
    CHECK(wq_take(&owner, &number) == WQ_OK && number == 1 && wq_begin(&owner, &number) == WQ_OK && number == 2);
    CHECK(wq_end(&owner) == WQ_OK);
    wq_worker_drain(&worker), wq_worker_resume(&worker), wq_worker_finish(&worker);
    CHECK(wq_worker_queue(&worker, &sender, 3) == (WQ_QUEUED | WQ_FIRST)); /* it is open, and nobody rests */
    CHECK(wq_close(&owner, &number) == WQ_OK && number == 1 && wq_worker_stop(&worker) == WQ_NOT_DONE);
    CHECK(wq_begin(&owner, &number) == WQ_OK && number == 3 && wq_end(&owner) == WQ_OK);
    CHECK(wq_worker_stop(&worker) == WQ_OK && wq_worker_stop(&worker) == WQ_NO_SEAT && wq_release(&sender) == WQ_OK);
}

static uint32_t opened, ran;

static void wait_until_opened(uint32_t item, void *data) {
    (void)data;
    CHECK(item == 2);
    while (!wq_load(&opened)) sched_yield();
    wq_set(&ran, 1);
}

/* As to a thread that the worker's function waits for: what is to end the worker returns while it runs, the seat and the memory stay the
 * worker's, and a later call joins it. */
static void no_join(void) {
    static wq_worker worker;
    starts = 1;
    CHECK(wq_build(&owner, 4, 1, 1) == WQ_OK && wq_hand_out(&owner, &sender) == WQ_OK);
    CHECK(wq_worker_start(&worker, &owner, 4, wait_until_opened, NULL) == WQ_OK && wq_is_queued(wq_worker_queue(&worker, &sender, 2)));
    wq_worker_finish(&worker);
    CHECK(wq_worker_start(&worker, &owner, 4, wait_until_opened, NULL) == WQ_IN_USE && wq_worker_stop(&worker) == WQ_NOT_DONE);
    wq_set(&opened, 1);
    wq_sleep(&worker.reached, WQ_SERVES); /* all has ended, but perhaps not the thread */
    CHECK(wq_worker_stop(&worker) == WQ_NOT_DONE);
    joins = 1;
    CHECK(wq_worker_stop(&worker) == WQ_OK && wq_load(&ran) && wq_worker_stop(&worker) == WQ_NO_SEAT && wq_release(&sender) == WQ_OK);
}

int main(void) {
    no_seat_that_does_not_fit();
    no_thread();
    no_join();
    printf("refusals: a seat that does not fit, and a thread that could not be started or joined\n");
    return 0;
}
