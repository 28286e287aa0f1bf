/* Both implementations asked the same. The lent buffers of a question are copied to areas that end where
 * memory ends, so that a read past a length stops the program; the buffers that are written to, an out buffer or a
 * table and a summary, have guard bytes on both sides, or every other time end there too. */
#define _DEFAULT_SOURCE
#include "both.h"

#include "bcube.h"
#include "kinds.h"
#include "plain.h"

#include <inttypes.h>
#include <signal.h>
#include <stdio.h>
#include <stdlib.h>
#include <string.h>
#include <sys/mman.h>
#include <unistd.h>

/* ---- the calls, each by both names */

static answer number(uint64_t value) { return (answer){value, 0}; }
static answer a_room(bcube_room room) { return number(room.number); }
static answer a_word(bcube_answer given) { return number(given.word); }
static answer a_step(bcube_stepped given) { return given; }

#define BOTH(form, call, arguments)                                                                            \
    static answer proved_##call(const struct question *q, void *const *to) { (void)q, (void)to; return form(bcube_##call arguments); } \
    static answer plainly_##call(const struct question *q, void *const *to) { (void)q, (void)to; return form(plain_##call arguments); }
#define ROOM q->room
#define NUMBER(i) q->number[i]
#define LENT(i) q->lent[i].at, q->lent[i].len
#define OUT to[0]
#define WRITTEN(i) to[i], q->lent[i].len

BOTH(number, version, ())
BOTH(a_room, room_of, (NUMBER(0), NUMBER(1)))
BOTH(a_room, filled_room, (NUMBER(0), NUMBER(1), NUMBER(2)))
BOTH(a_word, shape, (ROOM))
BOTH(a_word, servers, (ROOM))
BOTH(a_word, bound, (ROOM, NUMBER(0)))
BOTH(a_word, switches, (ROOM, NUMBER(0)))
BOTH(a_word, digits, (ROOM, NUMBER(0), OUT))
BOTH(a_word, digit, (ROOM, NUMBER(0), NUMBER(1)))
BOTH(a_word, address, (ROOM, NUMBER(0), NUMBER(1), NUMBER(2), NUMBER(3)))
BOTH(a_word, switch, (ROOM, NUMBER(0), NUMBER(1)))
BOTH(a_word, server_at, (ROOM, NUMBER(0), NUMBER(1), NUMBER(2)))
BOTH(a_word, neighbour, (ROOM, NUMBER(0), NUMBER(1), NUMBER(2)))
BOTH(a_word, between, (ROOM, NUMBER(0), NUMBER(1)))
BOTH(a_word, path_byte, (ROOM, NUMBER(0), NUMBER(1)))
BOTH(a_word, path_byte_parts, (ROOM, NUMBER(0)))
BOTH(a_word, hop_of, (ROOM, NUMBER(0), NUMBER(1)))
BOTH(a_word, failed_link, (ROOM, NUMBER(0), NUMBER(1), LENT(0)))
BOTH(a_word, mark, (ROOM, NUMBER(0), NUMBER(1), WRITTEN(0), WRITTEN(1)))
BOTH(a_word, clear, (ROOM, NUMBER(0), NUMBER(1), WRITTEN(0), WRITTEN(1)))
BOTH(a_word, mark_all, (ROOM, NUMBER(0), WRITTEN(0), WRITTEN(1)))
BOTH(a_word, clear_all, (ROOM, NUMBER(0), WRITTEN(0), WRITTEN(1)))
BOTH(a_word, dead_switch, (ROOM, LENT(0), LENT(1)))
BOTH(a_word, summarize, (ROOM, LENT(0), WRITTEN(1)))
BOTH(a_word, read, (ROOM, NUMBER(0), NUMBER(1), LENT(0), OUT))
BOTH(a_word, write, (ROOM, LENT(0), OUT))
BOTH(a_word, reverse, (ROOM, NUMBER(0), NUMBER(1), LENT(0), OUT))
BOTH(a_word, check, (ROOM, NUMBER(0), NUMBER(1), LENT(0), LENT(1)))
BOTH(a_word, build, (ROOM, NUMBER(0), NUMBER(1), OUT))
BOTH(a_word, find, (ROOM, NUMBER(0), NUMBER(1), LENT(0), OUT))
BOTH(a_word, select, (ROOM, NUMBER(0), NUMBER(1), LENT(0), OUT))
BOTH(a_word, pick, (ROOM, NUMBER(0), NUMBER(1), LENT(0), LENT(1), LENT(2)))
BOTH(a_step, step, (ROOM, NUMBER(0), NUMBER(1), NUMBER(2), LENT(0), LENT(1)))
BOTH(a_word, parent, (ROOM, NUMBER(0), NUMBER(1), NUMBER(2)))
BOTH(a_word, tree, (ROOM, NUMBER(0), NUMBER(1), OUT))

/* sets of refusals; 0, no refusal, is in each */
#define R(number) (UINT64_C(1) << (number))
#define SHAPED (R(0) | R(1) | R(2) | R(26) | R(3))
#define ENDS (SHAPED | R(4) | R(5))
#define AGAIN (R(28) | R(29))
#define HOPS_READ (R(8) | R(9) | R(10) | AGAIN | R(13) | R(14))
#define SUMMED (SHAPED | R(6) | R(30))

enum { REFUSALS = 64 };

/* which of its lent buffers a call writes to: less 1 for the first, less 2 for the second */
enum { SECOND = -2, FIRST_TWO = -3 };

static const struct {
    const char *name;
    answer (*proved)(const struct question *, void *const *), (*plainly)(const struct question *, void *const *);
    uint64_t gives;        /* the refusals that it can give */
    int out;               /* the bytes of its out buffer; below 0 the lent buffers that it writes to */
    const char *number[4]; /* what its numbers are called, */
    const char *lent[3];   /* and its lent buffers */
} calls[CALLS] = {
#define CALL(name, gives, out) #name, proved_##name, plainly_##name, gives, out
    [VERSION] = {CALL(version, R(0), 0), {0}, {0}},
    [ROOM_OF] = {CALL(room_of, R(0), 0), {"n", "k"}, {0}},
    [FILLED_ROOM] = {CALL(filled_room, R(0), 0), {"n", "k", "m"}, {0}},
    [SHAPE] = {CALL(shape, SHAPED, 0), {0}, {0}},
    [SERVERS] = {CALL(servers, SHAPED, 0), {0}, {0}},
    [BOUND] = {CALL(bound, SHAPED | R(20), 0), {"level"}, {0}},
    [SWITCHES] = {CALL(switches, SHAPED | R(20), 0), {"level"}, {0}},
    [DIGITS] = {CALL(digits, SHAPED | R(4), 32), {"server"}, {0}},
    [DIGIT] = {CALL(digit, SHAPED | R(4) | R(20), 0), {"server", "level"}, {0}},
    [ADDRESS] = {CALL(address, SHAPED | R(21), 0), {"d0", "d1", "d2", "d3"}, {0}},
    [SWITCH] = {CALL(switch, SHAPED | R(4) | R(20), 0), {"server", "level"}, {0}},
    [SERVER_AT] = {CALL(server_at, SHAPED | R(20) | R(21), 0), {"level", "number", "port"}, {0}},
    [NEIGHBOUR] = {CALL(neighbour, SHAPED | R(4) | R(20) | R(21), 0), {"server", "level", "value"}, {0}},
    [BETWEEN] = {CALL(between, SHAPED | R(4), 0), {"one", "other"}, {0}},
    [PATH_BYTE] = {CALL(path_byte, SHAPED | R(20) | R(21), 0), {"level", "value"}, {0}},
    [PATH_BYTE_PARTS] = {CALL(path_byte_parts, SHAPED | R(8) | R(9), 0), {"byte"}, {0}},
    [HOP_OF] = {CALL(hop_of, SHAPED | R(4) | R(8) | R(9) | R(10), 0), {"server", "byte"}, {0}},
    [FAILED_LINK] = {CALL(failed_link, SHAPED | R(4) | R(20) | R(6), 0), {"server", "level"}, {"table"}},
    [MARK] = {CALL(mark, SUMMED | R(4) | R(20), FIRST_TWO), {"server", "level"}, {"table", "summary"}},
    [CLEAR] = {CALL(clear, SUMMED | R(4) | R(20), FIRST_TWO), {"server", "level"}, {"table", "summary"}},
    [MARK_ALL] = {CALL(mark_all, SUMMED | R(4), FIRST_TWO), {"server"}, {"table", "summary"}},
    [CLEAR_ALL] = {CALL(clear_all, SUMMED | R(4), FIRST_TWO), {"server"}, {"table", "summary"}},
    [DEAD_SWITCH] = {CALL(dead_switch, SUMMED, 0), {0}, {"table", "summary"}},
    [SUMMARIZE] = {CALL(summarize, SUMMED, SECOND), {0}, {"table", "summary"}},
    [READ] = {CALL(read, ENDS | R(7) | HOPS_READ, 72), {"source", "destination"}, {"path"}},
    [WRITE] = {CALL(write, ENDS | R(22) | R(23) | AGAIN, 8), {0}, {"servers"}},
    [REVERSE] = {CALL(reverse, ENDS | R(7) | HOPS_READ, 8), {"source", "destination"}, {"path"}},
    [CHECK] = {CALL(check, ENDS | R(6) | R(7) | HOPS_READ | R(11) | R(15), 0), {"source", "destination"}, {"table", "list"}},
    [BUILD] = {CALL(build, ENDS, 32), {"source", "destination"}, {0}},
    [FIND] = {CALL(find, ENDS | R(6), 8), {"source", "destination"}, {"table"}},
    [SELECT] = {CALL(select, ENDS | R(6) | R(16), 32), {"source", "destination"}, {"table"}},
    [PICK] = {CALL(pick, ENDS | R(6) | R(7) | R(16), 0), {"source", "destination"}, {"table", "fresh", "kept"}},
#define STEPPED (SHAPED | R(4) | R(17) | R(7) | R(18) | R(8) | R(9) | R(10) | R(19))
    [STEP] = {CALL(step, STEPPED, 0), {"here", "destination", "index"}, {"path", "neighbours"}},
    [PARENT] = {CALL(parent, ENDS | R(20), 0), {"source", "tree", "server"}, {0}},
    [TREE] = {CALL(tree, SHAPED | R(4) | R(20), 4 * BCUBE_TREE_NUMBERS), {"source", "tree"}, {0}},
};

/* the refusal of what a call gave back, which is the lowest byte of a word */
static uint32_t refusal_of(enum call call, answer given) { return call <= FILLED_ROOM ? 0 : (uint32_t)(given.word & 255); }

/* ---- the buffers */

enum { AREA = 65536, GUARD = 16 };
static const size_t vast_size = ((size_t)1 << 32) + AREA;

static uint8_t *fence[3];     /* where the area of each lent buffer ends */
static const uint8_t *vast;
static struct question asked; /* with the lent buffers where they lie */

/* a buffer that is written to: as it was before, and as the proved and the plain call leave it, with the guard bytes
 * around it; an out buffer is the first */
static struct written {
    size_t size, after; /* after: the guard bytes behind it, GUARD, or 0 where memory ends there */
    uint8_t *edge;      /* where memory ends */
    uint8_t *proved;    /* where it begins: in `guarded`, or as far before the edge as it is long */
    uint8_t before[GUARD + AREA + GUARD], guarded[GUARD + AREA + GUARD], plain[GUARD + AREA + GUARD];
} written[2];

/* whether a call writes to this buffer: its out buffer, or one that it is lent */
static int writes(enum call call, int i) { return calls[call].out > 0 ? i == 0 : -calls[call].out >> i & 1; }

static int writes_lent(enum call call, int i) { return calls[call].out < 0 && writes(call, i); }

static size_t width(enum call call) { return call == WRITE ? sizeof(uint64_t) : 1; }

static size_t lent_bytes(const struct question *q, int i) { return q->lent[i].len * width(q->call); }

/* an area followed by one that cannot be read; pages may be as large as an area */
static uint8_t *fenced_area(void) {
    uint8_t *at = mmap(NULL, 3 * AREA, PROT_NONE, MAP_PRIVATE | MAP_ANONYMOUS, -1, 0);
    if (at == MAP_FAILED) exit(2);
    at += (AREA - (uintptr_t)at % AREA) % AREA;
    if (mprotect(at, AREA, PROT_READ | PROT_WRITE) != 0) exit(2);
    return at + AREA;
}

/* ---- saying what differs */

static unsigned long done, differing;
static unsigned long count[CALLS][REFUSALS];

static void print_lent(const struct question *q, int i) {
    size_t size = lent_bytes(q, i), shown = 0;
    const uint8_t *bytes = q->lent[i].at;
    printf("  %s of %zu:", calls[q->call].lent[i], q->lent[i].len);
    if (!bytes) {
        printf(" a null pointer");
    } else if (size > AREA) {
        printf(" zeros");
    } else if (q->call == WRITE) {
        for (size_t j = 0; j < q->lent[i].len; j++) printf(" %" PRIu64, ((const uint64_t *)q->lent[i].at)[j]);
    } else if (size <= 64) {
        for (size_t j = 0; j < size; j++) printf("%s%02x", j % 8 ? "" : " ", bytes[j]);
    } else {
        printf(" zero but for");
        for (size_t j = 0; j < size && shown < 64; j++)
            if (bytes[j]) shown++, printf(" %zu:%02x", j, bytes[j]);
        if (shown == 64) printf(" ..");
    }
    printf("\n");
}

static void print_question(const struct question *q) {
    printf("%s (%" PRIu64 ",%" PRIu64 ",%" PRIu64 ")", calls[q->call].name, q->room.number & 255,
           q->room.number >> 8 & 255, q->room.number >> 16);
    for (int i = 0; i < 4 && calls[q->call].number[i]; i++)
        printf(" %s %" PRIu64, calls[q->call].number[i], q->number[i]);
    printf("\n");
    for (int i = 0; i < 3 && calls[q->call].lent[i]; i++) print_lent(q, i);
}

static void print_answer(const char *whose, answer given, enum call call) {
    bcube_answer word = {given.word};
    printf("  %s %016" PRIx64, whose, given.word);
    if (call == STEP)
        printf(" %012" PRIx64 " (refusal %" PRIu32 ", hop %" PRIu32 ", delivered %d, index %" PRIu32 ", next %" PRIu32
               ", level %" PRIu32 ", old value %" PRIu32 ")",
               given.mac, bcube_step_refusal(given), bcube_step_hop(given), bcube_step_delivered(given),
               bcube_step_index(given), bcube_step_next(given), bcube_step_level(given), bcube_step_old(given));
    else if (call > FILLED_ROOM)
        printf(" (refusal %" PRIu32 ", route %" PRIu32 ", hop %" PRIu32 ", earlier route %" PRIu32 ", earlier hop %" PRIu32
               ", value %" PRIu32 ")", bcube_refusal(word), bcube_route(word), bcube_hop(word), bcube_earlier_route(word),
               bcube_earlier_hop(word), bcube_value(word));
    printf("\n");
}

/* the first eight bytes of which the two calls did not leave the same begin here; 0 where all are the same */
static size_t first_other(const struct written *it) {
    for (size_t j = 0; j < it->size; j++)
        if (it->proved[j] != it->plain[GUARD + j]) return j / 8 * 8;
    return 0;
}

/* the first bytes of what a call left, or those from the first on that the other did not leave */
static void print_left(const char *whose, int i, const uint8_t *bytes) {
    size_t from = first_other(&written[i]);
    printf("  %s left%s", whose, i == 0 ? "" : " in the summary");
    if (from != 0) printf(" from byte %zu on", from);
    for (size_t j = from; j < written[i].size && j < from + 72; j++) printf("%s%02x", j % 8 ? "" : " ", bytes[j]);
    printf("\n");
}

static void stopped(int signal_number) {
    const char *slow = "no answer for 20 seconds, to", *outside = "memory outside the lent buffers was used, in";
    printf("stopped: %s\n", signal_number == SIGALRM ? slow : outside);
    print_question(&asked);
    fflush(stdout);
    _exit(1);
}

/* ---- asking */

void open_both(void) {
    for (int i = 0; i < 3; i++) fence[i] = fenced_area();
    for (int i = 0; i < 2; i++) written[i].edge = fenced_area();
    void *at = mmap(NULL, vast_size, PROT_READ, MAP_PRIVATE | MAP_ANONYMOUS | MAP_NORESERVE, -1, 0);
    vast = at == MAP_FAILED ? NULL : at;
    signal(SIGSEGV, stopped);
    signal(SIGBUS, stopped);
    signal(SIGALRM, stopped);
}

const void *vast_area(void) { return vast; }

const void *left(void) { return written[0].plain + GUARD; }

const void *left_summary(void) { return written[1].plain + GUARD; }

unsigned long comparisons(void) { return done; }

unsigned long differences(void) { return differing; }

/* a buffer that is written to, as it is before a call: these bytes, or any */
static void lay_out_written(struct written *to, const void *bytes, size_t size) {
    to->size = size;
    to->after = done % 2 ? 0 : GUARD;
    to->proved = to->after ? to->guarded + GUARD : to->edge - size;
    for (size_t i = 0; i < GUARD + size + GUARD; i++) to->before[i] = (uint8_t)(37 * i + done);
    if (bytes && size) memcpy(to->before + GUARD, bytes, size);
    memcpy(to->proved - GUARD, to->before, GUARD + size + to->after);
    memcpy(to->plain, to->before, GUARD + size + GUARD);
}

/* the buffers as they are before a call */
static void lay_out(const struct question *q) {
    asked = *q;
    for (int i = 0; i < 3; i++) {
        if (!q->lent[i].at || q->lent[i].at == vast) continue;
        asked.lent[i].at = memcpy(fence[i] - lent_bytes(q, i), q->lent[i].at, lent_bytes(q, i));
    }
    for (int i = 0; i < 2; i++) {
        if (!writes(q->call, i)) continue;
        if (!writes_lent(q->call, i)) lay_out_written(&written[i], NULL, (size_t)calls[q->call].out);
        else lay_out_written(&written[i], q->lent[i].at, q->lent[i].at == vast ? 0 : q->lent[i].len);
    }
}

/* whether a lent buffer is the vast one, which must not be read through */
static int lends_vast(const struct question *q) {
    return vast && (q->lent[0].at == vast || q->lent[1].at == vast || q->lent[2].at == vast);
}

static int lent_kept(const struct question *q) {
    for (int i = 0; i < 3; i++)
        if (q->lent[i].at && q->lent[i].at != vast)
            if (memcmp(asked.lent[i].at, q->lent[i].at, lent_bytes(q, i)) != 0) return 0;
    return 1;
}

/* what differs in a buffer that is written to, or NULL */
static const char *difference_in(const struct written *it, int is_refused) {
    const uint8_t *was = it->before + GUARD;
    if (memcmp(it->proved, it->plain + GUARD, it->size) != 0) return "the bytes left differ";
    if (memcmp(it->proved - GUARD, it->before, GUARD) != 0) return "bytes before a buffer are changed";
    if (memcmp(it->proved + it->size, was + it->size, it->after) != 0) return "bytes after a buffer are changed";
    if (is_refused && memcmp(it->proved, was, it->size) != 0) return "a refusal changed a buffer";
    return NULL;
}

/* what differs, or NULL */
static const char *difference(const struct question *q, answer proved, answer plain) {
    const char *what = NULL;
    if (proved.word != plain.word || proved.mac != plain.mac) return "the answers differ";
    if (!lent_kept(q)) return "a lent buffer is changed";
    for (int i = 0; i < 2 && !what; i++)
        if (writes(q->call, i)) what = difference_in(&written[i], refusal_of(q->call, proved) != 0);
    return what;
}

static void report(const char *what, const struct question *q, answer proved, answer plain) {
    if (differing++ >= 20) return;
    printf("differ: %s: ", what);
    print_question(q);
    print_answer("proved", proved, q->call);
    print_answer("plain ", plain, q->call);
    for (int i = 0; i < 2; i++)
        if (writes(q->call, i)) {
            print_left("proved", i, written[i].proved);
            print_left("plain ", i, written[i].plain + GUARD);
        }
}

/* where a call gets a buffer that it writes to: a vast or a null one where it is lent */
static void *given_at(const struct question *q, int i, uint8_t *usual) {
    int as_lent = writes_lent(q->call, i) && (!q->lent[i].at || q->lent[i].at == vast);
    return as_lent ? (void *)(uintptr_t)q->lent[i].at : usual;
}

answer ask(const struct question *q) {
    lay_out(q);
    void *to_proved[2], *to_plain[2];
    for (int i = 0; i < 2; i++) {
        to_proved[i] = given_at(q, i, written[i].proved);
        to_plain[i] = given_at(q, i, written[i].plain + GUARD);
    }
    if (lends_vast(q)) alarm(20);
    answer proved = calls[q->call].proved(&asked, to_proved);
    answer plain = calls[q->call].plainly(&asked, to_plain);
    if (lends_vast(q)) alarm(0);
    const char *what = difference(q, proved, plain);
    if (what) report(what, q, proved, plain);
    uint32_t refusal = refusal_of(q->call, plain);
    if (refusal < REFUSALS) count[q->call][refusal]++;
    count_kinds(q, plain);
    done++;
    return plain;
}

void not_as_worked(const struct question *q, answer given, answer wanted) {
    if (differing++ >= 20) return;
    printf("not as worked by hand: ");
    print_question(q);
    print_answer("plain ", given, q->call);
    print_answer("wanted", wanted, q->call);
    for (int i = 0; i < 2; i++)
        if (writes(q->call, i)) print_left("plain ", i, written[i].plain + GUARD);
}

void not_a_tree(const struct question *q, const char *what, uint32_t server) {
    if (differing++ >= 20) return;
    printf("%s, server %" PRIu32 ": ", what, server);
    print_question(q);
}

void not_as_counted(const struct question *q) {
    if (differing++ >= 20) return;
    printf("the summary is not as counted afresh, after: ");
    print_question(q);
}

/* ---- the counts */

int print_counts(void) {
    int amiss = 0;
    printf("%-15s %10s  refused, by number\n", "call", "answered");
    for (int call = 0; call < CALLS; call++) {
        printf("%-15s %10lu ", calls[call].name, count[call][0]);
        for (uint32_t r = 0; r < REFUSALS; r++) {
            int can = (calls[call].gives & R(r)) != 0;
            if (r != 0 && (can || count[call][r] != 0)) printf(" %" PRIu32 ":%lu", r, count[call][r]);
            if (can ? count[call][r] >= LEAST : count[call][r] == 0) continue;
            if (can) printf(" (fewer than %d)", LEAST);
            else printf(" (not this call's)");
            amiss++;
        }
        printf("\n");
    }
    return amiss + print_kinds();
}
