/* wq_build and wq_check_history with each of their allocations refused in turn: they answer WQ_MEMORY, the seat stays vacant, and
 * nothing is kept. Link with -Wl,--wrap=malloc,--wrap=realloc,--wrap=free. */
#include "check.h"
#include "wq_pure.h"

static long left = -1, live;
void *__real_malloc(size_t size);
void *__real_realloc(void *block, size_t size);
void __real_free(void *block);

static int is_refused(void) { return left >= 0 && left-- == 0; }

void *__wrap_malloc(size_t size) {
    void *made = is_refused() ? NULL : __real_malloc(size);
    live += made != NULL;
    return made;
}

void *__wrap_realloc(void *block, size_t size) {
    void *made = is_refused() ? NULL : __real_realloc(block, size);
    live += block == NULL && made != NULL;
    return made;
}

void __wrap_free(void *block) {
    live -= block != NULL;
    __real_free(block);
}

static int check_refused(void) {
    const wq_event told[] = {{WQ_EVENT_HOLD, 0, 2}, {WQ_EVENT_PUSH, 0, 2}, {WQ_EVENT_END, 0, 2}};
    size_t place = 99;
    for (int refused = 0;; refused++) {
        left = refused;
        uint32_t code = wq_check_history(told, 3, 16, 1, 3, &place);
        left = -1;
        CHECK(live == 0 && (code == WQ_MEMORY ? place == 99 : code == WQ_FAULT_NOTHING_RUNS && place == 2));
        if (code != WQ_MEMORY) return refused;
    }
}

int main(void) {
    static wq_seat owner, sender;
    uint32_t n, code;
    int refused = 0, checking = check_refused();
    CHECK(wq_init(&owner) == WQ_OK && wq_init(&sender) == WQ_OK && live == 0);
    for (;; refused++) {
        left = refused;
        code = wq_build(&owner, 16, 1, 3);
        left = -1;
        if (code == WQ_OK) break;
        CHECK(code == WQ_MEMORY && live == 0 && wq_take(&owner, &n) == WQ_NOT_OWNER);
    }
    CHECK(refused > 0 && checking > 0 && wq_hand_out(&owner, &sender) == WQ_OK && wq_close(&owner, &n) == WQ_OK);
    CHECK(wq_release(&owner) == WQ_OK && live > 0); /* the sender keeps the words */
    CHECK(wq_queue(&sender, 0) == WQ_CLOSED && wq_release(&sender) == WQ_OK && live == 0);
    printf("memory: each of %d allocations was refused in turn\n", refused + checking);
    return 0;
}
