/* random FOLDER FIRST RUNS: random calls of random seats, right and wrong ones. What was answered is a legal history by wq_check_history,
 * and without its first Hold it is not. It is also written down as text, FOLDER/SEED.legal; of each sixteenth run also without its
 * first Hold, FOLDER/SEED.broken. */
#include "check.h"
#include "wq_pure.h"
#include <string.h>

enum { ITEMS = 5, BARRIERS = 2, SENDERS = 3, STOP = ITEMS + BARRIERS, OWNER = SENDERS };

static uint64_t state, calls, refused;
static wq_seat seats[SENDERS + 1];
static FILE *out;
static uint32_t numbers[SENDERS + 1], running;
static int is_running;
static char text[1 << 20];
static size_t used;
static wq_event events[1 << 16];
static size_t told;

static uint32_t below(uint32_t n) {
    state ^= state << 13;
    state ^= state >> 7;
    state ^= state << 17;
    return (uint32_t)(state >> 33) % n;
}

static const char *name_of(uint32_t number) {
    static char name[16];
    if (number == STOP) return "stop";
    snprintf(name, sizeof name, number < ITEMS ? "%u" : "b%u", number < ITEMS ? number : number - ITEMS);
    return name;
}

static void tell_event(uint32_t kind, uint32_t sender, uint32_t number) {
    wq_event event = {kind, sender, number};
    CHECK(told < sizeof events / sizeof *events);
    events[told++] = event;
}

static void tell(uint32_t kind, const char *line) {
    tell_event(kind, 0, 0);
    used += (size_t)snprintf(text + used, sizeof text - used, "%s\n", line);
}

static void tell_number(uint32_t kind, uint32_t sender, const char *who, const char *what, uint32_t number, const char *why) {
    tell_event(kind, sender, number);
    used += (size_t)snprintf(text + used, sizeof text - used, "%s %s %s%s\n", who, what, name_of(number), why);
}

static void queued(uint32_t code, uint32_t seat, uint32_t number) {
    char who[16];
    uint32_t sender = numbers[seat];
    snprintf(who, sizeof who, "%u", sender);
    if (code >= WQ_NOT_SENDER) return;
    if (code == WQ_PENDING) {
        tell_number(WQ_EVENT_BUSY, sender, who, "busy", number, "");
        return;
    }
    tell_number(WQ_EVENT_HOLD, sender, who, "hold", number, "");
    if (wq_is_queued(code)) tell_number(WQ_EVENT_PUSH, sender, who, "push", number, "");
    else if (code == WQ_CLOSED) tell_number(WQ_EVENT_BACK_CLOSED, sender, who, "back", number, " closed");
    else if (code == WQ_DRAINING) tell_number(WQ_EVENT_BACK_DRAINING, sender, who, "back", number, " draining");
    else CHECK(!"an answer that cannot come in one thread");
}

static void send_some(uint32_t at) {
    uint32_t item = below(ITEMS + 1), barrier = below(BARRIERS + 1);
    if (below(8) == 0) queued(wq_flush_begin(&seats[at], barrier), at, ITEMS + barrier);
    else if (below(30) == 0) queued(wq_request_stop(&seats[at]), at, STOP);
    else queued(wq_queue_tries(&seats[at], item, below(8) ? 3 : 0), at, item);
}

static void chain_some(uint32_t at) {
    uint32_t item = below(ITEMS + 1), code = wq_chain(&seats[at], item);
    if (code == WQ_QUEUED) tell_number(WQ_EVENT_CHAIN, 0, "o", "chain", item, "");
    else if (code == WQ_PENDING) tell_number(WQ_EVENT_CHAIN_BUSY, 0, "o", "busy", item, "");
    else CHECK(code >= WQ_NOT_SENDER);
}

static void begin_or_end(uint32_t at) {
    uint32_t number;
    if (below(8) ? !is_running : is_running) {
        if (wq_begin(&seats[at], &number) == WQ_OK) {
            running = number;
            is_running = 1;
            tell_number(WQ_EVENT_BEGIN, 0, "o", "begin", number, "");
        }
    } else if (wq_end(&seats[at]) == WQ_OK) {
        is_running = 0;
        tell_number(WQ_EVENT_END, 0, "o", "end", running, "");
    }
}

static void own_some(uint32_t at, int may_close) {
    switch (below(6)) {
    case 0: if (wq_take(&seats[at], WQ_NO_NUMBER) == WQ_OK) tell(WQ_EVENT_TAKE, "o take"); break;
    case 1: if (wq_rest(&seats[at]) == WQ_YES) tell(WQ_EVENT_REST, "o rest"); break;
    case 2: if (wq_resume(&seats[at]) == WQ_OK) tell(WQ_EVENT_RESUME, "o resume"); break;
    case 3: if (below(6) == 0 && wq_drain(&seats[at], WQ_NO_NUMBER) == WQ_OK) tell(WQ_EVENT_DRAIN, "o drain"); break;
    case 4: chain_some(at); break;
    default: if (may_close && wq_close(&seats[at], WQ_NO_NUMBER) == WQ_OK) tell(WQ_EVENT_CLOSE, "o close");
    }
}

static void write_text(const char *folder, uint64_t seed, const char *kind, const char *without) {
    char path[4096];
    snprintf(path, sizeof path, "%s/%llu.%s", folder, (unsigned long long)seed, kind);
    out = fopen(path, "w");
    CHECK(out != NULL);
    fprintf(out, "history 1\nitems %d\nsenders %d\nbarriers %d\n", ITEMS, SENDERS, BARRIERS);
    fwrite(text, 1, (size_t)((without ? without : text + used) - text), out);
    if (without) fputs(strchr(without, '\n') + 1, out);
    CHECK(fclose(out) == 0);
}

/* The history is legal. Without its first Hold it is not: the sender does not hold what it pushes, or gives back, just behind. */
static void judge(void) {
    size_t first = 0, place = 0;
    CHECK(wq_check_history(events, told, ITEMS, BARRIERS, SENDERS, &place) == WQ_OK);
    while (first < told && events[first].kind != WQ_EVENT_HOLD) first++;
    if (first == told) return;
    memmove(&events[first], &events[first + 1], (told - first - 1) * sizeof *events);
    uint32_t code = wq_check_history(events, told - 1, ITEMS, BARRIERS, SENDERS, &place);
    CHECK(code == WQ_FAULT_NOT_HELD && place == first);
}

static void make_queue(void) {
    used = told = 0;
    text[0] = 0;
    is_running = 0;
    for (int i = 0; i <= SENDERS; i++) CHECK(wq_init(&seats[i]) == WQ_OK);
    CHECK(wq_build(&seats[OWNER], ITEMS, BARRIERS, SENDERS) == WQ_OK);
    for (int i = 0; i < SENDERS; i++) CHECK(wq_hand_out(&seats[OWNER], &seats[i]) == WQ_OK && wq_number(&seats[i], &numbers[i]) == WQ_OK);
}

static void give_up(void) {
    while (wq_is_done(&seats[OWNER]) == WQ_NO) {
        wq_end(&seats[OWNER]);
        wq_close(&seats[OWNER], WQ_NO_NUMBER);
        wq_begin(&seats[OWNER], WQ_NO_NUMBER);
    }
    for (int i = 0; i <= SENDERS; i++) CHECK(wq_release(&seats[i]) == WQ_OK);
}

int main(int argc, char **argv) {
    CHECK(argc == 4);
    uint64_t first = strtoull(argv[2], NULL, 10), runs = strtoull(argv[3], NULL, 10);
    for (uint64_t seed = first; seed < first + runs; seed++) {
        state = seed * 0x9E3779B97F4A7C15ull + 1;
        make_queue();
        uint32_t length = 20 + below(1200);
        for (uint32_t call = 0; call < length; call++, calls++) {
            size_t before = used;
            uint32_t any = below(SENDERS + 1), is_right = below(8);
            if (below(3) == 0) send_some(is_right ? below(SENDERS) : any);
            else if (below(3)) begin_or_end(is_right ? OWNER : any);
            else own_some(is_right ? OWNER : any, call > length / 2 && below(20) == 0);
            refused += used == before;
        }
        write_text(argv[1], seed, "legal", NULL);
        const char *hold = strstr(text, " hold ");
        if (seed % 16 == 0 && hold) write_text(argv[1], seed, "broken", hold - 1);
        judge();
        give_up();
    }
    printf("random: %llu calls, of which %llu changed nothing; the histories are legal\n", (unsigned long long)calls, (unsigned long long)refused);
    return 0;
}
