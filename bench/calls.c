/* calls check: asks every question of every row of both, the proved library and a plain one, and compares what they
 * answer and write; prints how many. The plain one is that of tests/c/plain.c, and for the calls with a table and its
 * summary and those of the spanning trees that of plain.c here, which is written for speed.
 * calls rows: prints the names of the rows.
 * calls WHICH ROW TIMES: asks every question of a row TIMES times of one of them (proved, plain or none, which is an
 * empty call with the same arguments), and prints how many calls that were, the sum of what they answered, and
 * the time they took. */
#define _POSIX_C_SOURCE 199309L
#include "../tests/c/plain.h"
#include "plain.h"

#include <inttypes.h>
#include <stdio.h>
#include <stdlib.h>
#include <string.h>
#include <time.h>

/* ---- the questions: pairs of servers in a room of 8 ports and levels 0 to 3 */

enum { N = 8, K = 3, SERVERS = 4096, QUESTIONS = 16, FAILED = 8, WRITTEN = 72 };
static bcube_room room;

struct question {
    uint64_t source, destination, met[9];
    size_t count; /* of the servers met by the first built route */
    uint8_t list[BCUBE_LIST_BYTES]; /* the built routes */
    uint8_t some[SERVERS];          /* a failed-link table that breaks none of them */
    uint8_t broken[SERVERS];        /* one that breaks one of them */
};

static struct question question[QUESTIONS];
static uint8_t neighbours[BCUBE_NEIGHBOUR_TABLE_BYTES];
static union {
    uint64_t servers[9];
    uint8_t bytes[WRITTEN];
} out;

static uint64_t seed = 1;

static uint32_t below(uint32_t most) {
    seed = seed * 6364136223846793005u + 1442695040888963407u;
    return (uint32_t)(seed >> 33) % most;
}

/* random failed links off the built routes; and the same with one more, on the way of the last built route */
static void make_tables(struct question *q) {
    do {
        memset(q->some, 0, SERVERS);
        for (int i = 0; i < FAILED; i++) q->some[below(SERVERS)] |= (uint8_t)(1u << below(K + 1));
    } while (bcube_refusal(plain_check(room, q->source, q->destination, q->some, SERVERS, q->list, BCUBE_LIST_BYTES)));
    uint64_t met[9];
    const uint8_t *last = q->list + BCUBE_PATH_BYTES * K;
    uint32_t hop = bcube_value(plain_read(room, q->source, q->destination, last, BCUBE_PATH_BYTES, met)) > 2 ? 1 : 0;
    memcpy(q->broken, q->some, SERVERS);
    q->broken[met[hop]] |= (uint8_t)(1u << last[hop] / 64);
}

static void make_questions(void) {
    room = bcube_room_of(N, K);
    for (size_t i = 0; i < sizeof neighbours; i++) neighbours[i] = (uint8_t)(i % 8 == 7 ? 1 : i * 37 % 251);
    for (int i = 0; i < QUESTIONS; i++) {
        struct question *q = &question[i];
        q->source = below(SERVERS);
        do q->destination = below(SERVERS);
        while (q->destination == q->source);
        plain_build(room, q->source, q->destination, q->list);
        q->count = bcube_value(plain_read(room, q->source, q->destination, q->list, BCUBE_PATH_BYTES, q->met));
        make_tables(q);
    }
}

/* ---- tables with their summaries, in four rooms: some random failed links; and servers to be marked and cleared, no
 * two of them at one switch, so that each can be put as it was before its own change. The same servers are the sources of
 * trees */

enum { ROOMS = 4 };
static const uint32_t shapes[ROOMS][3] = {{8, 3, 8}, {64, 1, 64}, {12, 3, 2}, {8, 3, 4}};

static struct summed {
    bcube_room room;
    uint32_t k, servers, entries;
    uint8_t table[SERVERS], summary[BCUBE_MOST_SWITCHES], counted[BCUBE_MOST_SWITCHES];
    uint32_t parents[BCUBE_TREE_NUMBERS];
    struct link {
        uint64_t server, level, child; /* another server, whose parent is asked for */
        uint32_t place[4]; /* of the entries of its switches, */
        uint8_t entry[4];  /* and what they are while its links are live */
    } link[QUESTIONS], *now;
} summed[ROOMS];

static int share_a_switch(const struct summed *s, const struct link *one, const struct link *other) {
    for (uint32_t level = 0; level <= s->k; level++)
        if (one->place[level] == other->place[level]) return 1;
    return 0;
}

/* a server whose links are live, with none of the first `made` at one of its switches */
static void make_link(struct summed *s, int made) {
    struct link *link = &s->link[made];
    int again;
    do {
        uint32_t before = 0;
        link->server = below(s->servers);
        link->level = below(s->k + 1);
        link->child = (link->server + 1 + question[made].destination % (s->servers - 1)) % s->servers;
        for (uint32_t level = 0; level <= s->k; level++) {
            link->place[level] = before + bcube_value(plain_switch(s->room, link->server, level));
            link->entry[level] = s->summary[link->place[level]];
            before += bcube_value(plain_switches(s->room, level));
        }
        again = s->table[link->server] != 0;
        for (int i = 0; i < made; i++) again |= share_a_switch(s, link, &s->link[i]);
    } while (again);
}

static void make_summed(int r) {
    struct summed *s = &summed[r];
    s->room = bcube_filled_room(shapes[r][0], shapes[r][1], shapes[r][2]);
    s->k = shapes[r][1];
    s->servers = bcube_value(plain_servers(s->room));
    for (uint32_t level = 0; level <= s->k; level++) s->entries += bcube_value(plain_switches(s->room, level));
    for (int i = 0; i < FAILED; i++) s->table[below(s->servers)] |= (uint8_t)(1u << below(s->k + 1));
    if (bcube_refusal(plain_summarize(s->room, s->table, s->servers, s->summary, s->entries))) exit(2);
    for (int i = 0; i < QUESTIONS; i++) make_link(s, i);
}

/* the room with the links of a question as they are before its change: these bits of the server's byte are set */
__attribute__((noipa)) static struct summed *put(int r, const struct question *q, uint32_t bits) {
    struct summed *s = &summed[r];
    s->now = &s->link[q - question];
    s->table[s->now->server] = (uint8_t)bits;
    for (uint32_t level = 0; level <= s->k; level++)
        s->summary[s->now->place[level]] = (uint8_t)(s->now->entry[level] + (bits >> level & 1));
    return s;
}

/* ---- the rows: an empty call with the same arguments, and the call of both */

static uint64_t number_of(bcube_answer answer) { return answer.word; }
static uint64_t both_of(bcube_stepped step) { return step.word + 3 * step.mac; }

#define ROW(row, form, sum, call, parameters, arguments)                              \
    __attribute__((noipa)) static form empty_##row parameters { return (form){0}; }   \
    static uint64_t none_##row(const struct question *q) { return sum(empty_##row arguments); } \
    static uint64_t plain_##row##_row(const struct question *q) { return sum(plain_##call arguments); } \
    static uint64_t proved_##row(const struct question *q) { return sum(bcube_##call arguments); }

#pragma GCC diagnostic ignored "-Wunused-parameter"
#pragma GCC diagnostic ignored "-Wmissing-field-initializers"
#define ENDS bcube_room room, uint64_t source, uint64_t destination
#define THESE room, q->source, q->destination
#define BYTES(name) const uint8_t *name, size_t name##_len
#define WORD(row, call, parameters, arguments) ROW(row, bcube_answer, number_of, call, parameters, arguments)

WORD(digit, digit, (bcube_room room, uint64_t server, uint64_t level), (room, q->source, 2))
WORD(switch, switch, (bcube_room room, uint64_t server, uint64_t level), (room, q->source, 2))
WORD(server_at, server_at, (bcube_room room, uint64_t level, uint64_t number, uint64_t port), (room, 2, q->source / 8, 3))
WORD(neighbour, neighbour, (bcube_room room, uint64_t server, uint64_t level, uint64_t value), (room, q->source, 2, 3))
WORD(path_byte, path_byte, (bcube_room room, uint64_t level, uint64_t value), (room, 2, 3))
WORD(hop_of, hop_of, (bcube_room room, uint64_t server, uint64_t byte), (room, q->source, q->list[0]))
WORD(failed_link, failed_link, (bcube_room room, uint64_t server, uint64_t level, BYTES(table)), (room, q->source, 2, q->some, SERVERS))
WORD(read, read, (ENDS, BYTES(path), uint64_t *servers), (THESE, q->list, 8, out.servers))
WORD(write, write, (bcube_room room, const uint64_t *servers, size_t servers_len, uint8_t *path), (room, q->met, q->count, out.bytes))
WORD(reverse, reverse, (ENDS, BYTES(path), uint8_t *reversed), (THESE, q->list, 8, out.bytes))
WORD(check, check, (ENDS, BYTES(table), BYTES(list)), (THESE, q->some, SERVERS, q->list, BCUBE_LIST_BYTES))
WORD(build, build, (ENDS, uint8_t *routes), (THESE, out.bytes))
WORD(select_whole, select, (ENDS, BYTES(table), uint8_t *routes), (THESE, q->some, SERVERS, out.bytes))
WORD(select_broken, select, (ENDS, BYTES(table), uint8_t *routes), (THESE, q->broken, SERVERS, out.bytes))
WORD(pick, pick, (ENDS, BYTES(table), BYTES(fresh), BYTES(kept)), (THESE, q->some, SERVERS, q->list, 8, q->list, BCUBE_LIST_BYTES))
ROW(step, bcube_stepped, both_of, step, (ENDS, uint64_t index, BYTES(path), BYTES(neighbours)),
    (THESE, 0, q->list, 8, neighbours, BCUBE_NEIGHBOUR_TABLE_BYTES))

/* those with a table and its summary, in a room: the links are put as they are before the call, whichever it is */
#define SUMMED(call, r, bits, parameters, arguments)                                  \
    __attribute__((noipa)) static bcube_answer empty_##call##r parameters { return (bcube_answer){0}; } \
    ASKED(none_##call##r, r, bits, empty_##call##r arguments)                         \
    ASKED(tested_##call##r, r, bits, tested_##call arguments)                         \
    ASKED(proved_##call##r, r, bits, bcube_##call arguments)
#define ASKED(name, r, bits, it)                                                      \
    static uint64_t name(const struct question *q) { struct summed *s = put(r, q, bits); return number_of(it); }
#define LINK bcube_room room, uint64_t server, uint64_t level, CHANGED
#define SERVER bcube_room room, uint64_t server, CHANGED
#define BOTH s->table, s->servers, s->summary, s->entries
#define ALL(r) ((2u << shapes[r][1]) - 1)
#define IN_ROOM(r)                                                                    \
    SUMMED(mark, r, 0, (LINK), (s->room, s->now->server, s->now->level, BOTH))        \
    SUMMED(clear, r, 1u << summed[r].link[q - question].level, (LINK), (s->room, s->now->server, s->now->level, BOTH)) \
    SUMMED(mark_all, r, 0, (SERVER), (s->room, s->now->server, BOTH))                 \
    SUMMED(clear_all, r, ALL(r), (SERVER), (s->room, s->now->server, BOTH))           \
    SUMMED(dead_switch, r, 0, (bcube_room room, BYTES(table), BYTES(summary)), (s->room, BOTH)) \
    SUMMED(summarize, r, 0, (bcube_room room, BYTES(table), uint8_t *summary, size_t summary_len), \
           (s->room, s->table, s->servers, s->counted, s->entries))                   \
    SUMMED(parent, r, 0, (bcube_room room, uint64_t source, uint64_t tree, uint64_t server), \
           (s->room, s->now->server, s->now->level, s->now->child))                   \
    SUMMED(tree, r, 0, (bcube_room room, uint64_t source, uint64_t tree, uint32_t *parents), \
           (s->room, s->now->server, s->now->level, s->parents))

IN_ROOM(0)
IN_ROOM(1)
IN_ROOM(2)
IN_ROOM(3)

typedef uint64_t a_call(const struct question *);

static const struct {
    const char *name;
    a_call *none, *plain, *proved;
} rows[] = {
#define NAMED(row) {#row, none_##row, plain_##row##_row, proved_##row}
    NAMED(digit), NAMED(switch), NAMED(server_at), NAMED(neighbour), NAMED(path_byte), NAMED(hop_of),
    NAMED(failed_link), NAMED(read), NAMED(write), NAMED(reverse), NAMED(check), NAMED(build),
    NAMED(select_whole), NAMED(select_broken), NAMED(pick), NAMED(step),
#define IN(call, r, room) {#call ":" room, none_##call##r, tested_##call##r, proved_##call##r}
#define IN_ROOMS(call) IN(call, 0, "8,3"), IN(call, 1, "64,1"), IN(call, 2, "12,3,2"), IN(call, 3, "8,3,4")
    IN_ROOMS(mark), IN_ROOMS(clear), IN_ROOMS(mark_all), IN_ROOMS(clear_all),
    IN_ROOMS(dead_switch), IN_ROOMS(summarize), IN_ROOMS(parent), IN_ROOMS(tree),
};
enum { ROWS = sizeof rows / sizeof *rows };

/* ---- what the words ask for */

/* what the calls write, as it is before a call */
static void unwrite(void) {
    memset(out.bytes, 0xaa, WRITTEN);
    for (int r = 0; r < ROOMS; r++) {
        memset(summed[r].counted, 0xaa, sizeof summed[r].counted);
        memset(summed[r].parents, 0xaa, sizeof summed[r].parents);
    }
}

static int check(void) {
    static struct summed kept[ROOMS];
    int compared = 0;
    for (int r = 0; r < ROWS; r++)
        for (int i = 0; i < QUESTIONS; i++, compared++) {
            uint8_t written[WRITTEN];
            unwrite();
            uint64_t plain = rows[r].plain(&question[i]);
            memcpy(written, out.bytes, WRITTEN);
            memcpy(kept, summed, sizeof kept);
            unwrite();
            if (rows[r].proved(&question[i]) == plain && memcmp(written, out.bytes, WRITTEN) == 0 &&
                memcmp(kept, summed, sizeof kept) == 0)
                continue;
            printf("%s: both do not answer alike\n", rows[r].name);
            return 1;
        }
    printf("both answer alike on %d questions\n", compared);
    return 0;
}

static a_call *called(const char *which, const char *row) {
    for (int r = 0; r < ROWS; r++) {
        if (strcmp(rows[r].name, row) != 0) continue;
        if (strcmp(which, "none") == 0) return rows[r].none;
        if (strcmp(which, "plain") == 0) return rows[r].plain;
        if (strcmp(which, "proved") == 0) return rows[r].proved;
    }
    return NULL;
}

int main(int count, char **words) {
    make_questions();
    for (int r = 0; r < ROOMS; r++) make_summed(r);
    if (count == 2 && strcmp(words[1], "check") == 0) return check();
    if (count == 2 && strcmp(words[1], "rows") == 0) {
        for (int r = 0; r < ROWS; r++) puts(rows[r].name);
        return 0;
    }
    if (count != 4) return 2;
    a_call *volatile call = called(words[1], words[2]);
    if (!call) return 2;
    unsigned long times = strtoul(words[3], NULL, 10);
    uint64_t sum = 0;
    struct timespec from, to;
    clock_gettime(CLOCK_MONOTONIC, &from);
    for (unsigned long t = 0; t < times; t++)
        for (int i = 0; i < QUESTIONS; i++) sum += call(&question[i]);
    clock_gettime(CLOCK_MONOTONIC, &to);
    double ns = 1e9 * (double)(to.tv_sec - from.tv_sec) + (double)(to.tv_nsec - from.tv_nsec);
    printf("calls %lu sum %" PRIx64 " ns %.0f\n", times * QUESTIONS, sum, ns);
    return 0;
}
