/* An ordered queue under a mutex, and what it takes to record it: cc -pthread queue.c && ./a.out > right.trace
 * -DBUG=1: the newest overtakes. 2: two run at once. 3: what waits at the close is lost. 4: the last one runs twice. */
#include <pthread.h>
#include <stdatomic.h>
#include <stdbool.h>
#include <stdint.h>
#include <stdio.h>
#include <string.h>
#include <unistd.h>
#ifndef BUG
#define BUG 0
#endif
enum { ITEMS = 6, OWN = 3, SENDERS = ITEMS / OWN, TURNS = 4 * OWN, WORKERS = BUG == 2 ? 2 : 1 };

/* the recording: an entry takes its place under the lock, or on the worker */
static struct mark { const char *what; int item; } marks[3 * SENDERS * TURNS + 3];
static atomic_int marked;
static void mark(const char *what, int item) { marks[atomic_fetch_add(&marked, 1)] = (struct mark){what, item}; }

static pthread_mutex_t lock = PTHREAD_MUTEX_INITIALIZER;
static pthread_cond_t changed = PTHREAD_COND_INITIALIZER;
static int waiting[ITEMS], count, last = -1; /* oldest first, how many, and the one that was taken last */
static bool pending[ITEMS], closed;

static void *send(void *first) { /* queues its own items in turn, each where it is not pending */
    for (int turn = 0; turn < TURNS; turn++) {
        int item = (intptr_t)first + turn % OWN;
        if (turn % OWN == 0) usleep(turn * 2000);
        pthread_mutex_lock(&lock);
        if (!pending[item]) mark("queue", waiting[count++] = item);
        pending[item] = true;
        pthread_cond_signal(&changed);
        pthread_mutex_unlock(&lock);
    }
    return 0;
}

static int take(void) { /* the oldest, or -1 where the queue is closed and empty */
    int item = -1, at = 0;
    pthread_mutex_lock(&lock);
    while (count == 0 && !closed) pthread_cond_wait(&changed, &lock);
    if (count > 0 && !(BUG == 3 && closed)) {
        if (BUG == 1) at = count - 1;
        pending[item = last = waiting[at]] = false;
        memmove(waiting + at, waiting + at + 1, (--count - at) * sizeof *waiting);
    } else if (BUG == 4) item = last, last = -1;
    pthread_mutex_unlock(&lock);
    return item;
}

static void *work(void *unused) {
    for (int item; (item = take()) >= 0; mark("end", item)) {
        mark("start", item);
        usleep(2000); /* here the item runs */
    }
    return unused;
}

int main(void) {
    pthread_t senders[SENDERS], workers[WORKERS];
    for (intptr_t at = 0; at < SENDERS; at++) pthread_create(&senders[at], 0, send, (void *)(at * OWN));
    for (int at = 0; at < WORKERS; at++) pthread_create(&workers[at], 0, work, 0);
    for (int at = 0; at < SENDERS; at++) pthread_join(senders[at], 0);
    pthread_mutex_lock(&lock);
    closed = true;
    pthread_cond_broadcast(&changed);
    pthread_mutex_unlock(&lock);
    for (int at = 0; at < WORKERS; at++) pthread_join(workers[at], 0);
    printf("trace 1\nitems %d\n", ITEMS);
    for (int at = 0; at < marked; at++) printf("%s %d\n", marks[at].what, marks[at].item);
}
