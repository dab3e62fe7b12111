/* logger: four threads write log lines through one ordered workqueue, and one worker prints them. Each thread's lines come in its
 * order, a flush waits for all lines before it, and a drain stops the printing while the output is changed. */
#include <stdio.h>
#include <stdlib.h>
#include <wq_worker.h>

enum { THREADS = 4, LINES = 8 };

/* Item t * LINES + k is the k-th line of thread t. */
static char lines[THREADS * LINES][32];
static wq_seat owner, senders[THREADS];
static wq_worker worker;
static const char *prefix = "";

static void print_line(uint32_t item, void *data) {
    (void)data;
    printf("%s%s\n", prefix, lines[item]);
}

static void write_line(int thread, int line) {
    int item = thread * LINES + line;
    snprintf(lines[item], sizeof lines[item], "thread %d line %d", thread, line);
    uint32_t code = wq_worker_queue(&worker, &senders[thread], (uint32_t)item);
    if (!wq_is_queued(code)) fprintf(stderr, "line not written: %s\n", wq_code_name(code));
}

static void *write_lines(void *given) {
    int thread = (int)((wq_seat *)given - senders);
    for (int line = 0; line < LINES / 2; line++) write_line(thread, line);
    /* its lines are printed where this answers a queueing; a queue that drains or is closed refuses it and waits for nothing */
    uint32_t code = wq_worker_flush(&worker, &senders[thread], (uint32_t)thread);
    if (!wq_is_queued(code)) fprintf(stderr, "not flushed: %s\n", wq_code_name(code));
    return NULL;
}

int main(void) {
    pthread_t threads[THREADS];
    if (wq_init(&owner) || wq_build(&owner, THREADS * LINES, THREADS, THREADS)) return 1;
    for (int t = 0; t < THREADS; t++)
        if (wq_init(&senders[t]) || wq_hand_out(&owner, &senders[t])) return 1;
    if (wq_worker_start(&worker, &owner, THREADS * LINES, print_line, NULL)) return 1;
    for (int t = 0; t < THREADS; t++)
        if (pthread_create(&threads[t], NULL, write_lines, &senders[t])) return 1;
    for (int t = 0; t < THREADS; t++) pthread_join(threads[t], NULL);

    wq_worker_drain(&worker); /* nothing is printed now, and a line would be answered WQ_DRAINING */
    prefix = "again: ";
    wq_worker_resume(&worker);
    for (int line = LINES / 2; line < LINES; line++) write_line(0, line);

    wq_counts sums = {0};
    wq_worker_finish(&worker); /* prints what is left */
    wq_add_counts(&owner, &sums);
    wq_release(&owner);
    for (int t = 0; t < THREADS; t++) {
        wq_add_counts(&senders[t], &sums);
        wq_release(&senders[t]);
    }
    return wq_balances(&sums) ? 0 : 1; /* what was queued was executed */
}
