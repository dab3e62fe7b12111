/* sensors: three threads measure, and the main thread shows the newest value of each. It owns the queue and executes in a loop of its
 * own, without a worker; an eventfd wakes it. A sensor that measures faster than the owner shows is shown less often, but its last
 * value is shown: what a thread wrote before a queueing is there when the item runs, also where that queueing was answered WQ_PENDING
 * by an earlier one of the same thread. */
#include <pthread.h>
#include <stdio.h>
#include <sys/eventfd.h>
#include <unistd.h>
#include <wq.h>

enum { SENSORS = 3, VALUES = 1000, BARRIERS = 1, STOP = SENSORS + BARRIERS };

static wq_seat owner, senders[SENSORS];
static int values[SENSORS], shown[SENSORS], measuring = SENSORS, bell;

/* Whoever is answered WQ_WAKES wakes the owner, and nobody else does. */
static void wake(uint32_t code) {
    uint64_t one = 1;
    if (wq_wakes(code) && write(bell, &one, sizeof one) != sizeof one) perror("sensors");
}

static void *measure(void *given) {
    wq_seat *sender = (wq_seat *)given;
    int sensor = (int)(sender - senders);
    for (int value = 1; value <= VALUES; value++) {
        __atomic_store_n(&values[sensor], value, __ATOMIC_RELAXED); /* the item may run meanwhile, and read it */
        wake(wq_queue(sender, (uint32_t)sensor));
    }
    /* the last one asks the owner to stop, behind all that was queued */
    if (__atomic_sub_fetch(&measuring, 1, __ATOMIC_SEQ_CST) == 0) wake(wq_request_stop(sender));
    return NULL;
}

/* Executes what was taken. Whether the stop item was there. */
static int execute(void) {
    int stops = 0;
    uint32_t number;
    while (wq_begin(&owner, &number) == WQ_OK) {
        if (number < SENSORS) shown[number] = __atomic_load_n(&values[number], __ATOMIC_RELAXED);
        stops |= number == STOP;
        wq_end(&owner);
    }
    return stops;
}

static int serve(void) {
    uint64_t rings;
    for (;;) {
        wq_take(&owner, NULL);
        if (execute()) return 0;
        /* WQ_NO: something was queued since the take, so take again */
        if (wq_rest(&owner) == WQ_YES && read(bell, &rings, sizeof rings) != sizeof rings) return 1;
    }
}

int main(void) {
    pthread_t threads[SENSORS];
    wq_counts sums = {0, 0, 0, 0, 0, 0, 0, 0};
    if ((bell = eventfd(0, 0)) < 0) return 1;
    if (wq_init(&owner) || wq_build(&owner, SENSORS, BARRIERS, SENSORS)) return 1;
    for (int s = 0; s < SENSORS; s++)
        if (wq_init(&senders[s]) || wq_hand_out(&owner, &senders[s])) return 1;
    for (int s = 0; s < SENSORS; s++)
        if (pthread_create(&threads[s], NULL, measure, &senders[s])) return 1;
    if (serve()) return 1;
    for (int s = 0; s < SENSORS; s++) pthread_join(threads[s], NULL);

    wq_close(&owner, NULL); /* from here on a queueing would be answered WQ_CLOSED */
    execute();              /* what the close took */
    wq_add_counts(&owner, &sums);
    for (int s = 0; s < SENSORS; s++) {
        wq_add_counts(&senders[s], &sums);
        wq_release(&senders[s]);
        printf("sensor %d: %d\n", s, shown[s]);
    }
    return wq_release(&owner) == WQ_OK && wq_balances(&sums) ? 0 : 1; /* what was queued was executed */
}
