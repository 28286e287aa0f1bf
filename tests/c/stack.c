/* Measures how many bytes of stack each call takes: it runs on a stack that was painted, and the paint that is
 * gone after many questions is what it took, above what the same program takes with an empty call in its
 * place. Prints a line for each call: its name and the bytes. */
#include "plain.h"

#include <stdio.h>
#include <stdlib.h>
#include <string.h>
#include <ucontext.h>

/* ---- the questions, in rooms of every form: right, and refused at each of the tests */

static uint64_t seed;

static uint32_t any(uint32_t below) {
    seed = seed * 6364136223846793005u + 1442695040888963407u;
    return (uint32_t)((seed >> 33) % below);
}

static struct {
    bcube_room room;
    uint64_t source, destination, level, value, met[BCUBE_ROUTE_SERVERS];
    size_t servers, entries;
    uint8_t failed[BCUBE_MOST_SERVERS], list[BCUBE_LIST_BYTES], path[BCUBE_PATH_BYTES];
    uint8_t neighbours[BCUBE_NEIGHBOUR_TABLE_BYTES];
} q;
static uint64_t digits[4], servers[BCUBE_ROUTE_SERVERS];
static uint8_t table[BCUBE_MOST_SERVERS], summary[BCUBE_MOST_SWITCHES], counted[BCUBE_MOST_SWITCHES];
static uint8_t path[BCUBE_PATH_BYTES], routes[BCUBE_LIST_BYTES];
static uint32_t parents[BCUBE_TREE_NUMBERS];
enum { QUESTIONS = 630 };

static void next_question(int i) {
    static const uint32_t shapes[][3] = {{8, 3, 8}, {16, 2, 16}, {64, 1, 64}, {64, 0, 64}, {4, 1, 4}, {2, 3, 2}, {3, 3, 3},
                                         {2, 0, 2}, {9, 3, 9}, {8, 3, 4}, {12, 3, 2}, {45, 2, 2}, {64, 0, 2}, {8, 3, 9}};
    const uint32_t *shape = shapes[i % (int)(sizeof shapes / sizeof *shapes)];
    q.room = plain_filled_room(shape[0], shape[1], shape[2]);
    q.servers = bcube_value(plain_servers(q.room));
    uint32_t most = q.servers ? (uint32_t)q.servers : 4096;
    q.source = any(most);
    q.destination = any(8) ? any(most) : q.source;
    q.level = any(shape[1] + 1);
    q.value = any(shape[0]);
    memset(q.failed, 0, sizeof q.failed);
    for (uint32_t f = any(3) ? any(most) : 0; f > 0; f--) q.failed[any(most)] |= (uint8_t)(1u << any(shape[1] + 1));
    if (any(8) == 0) q.failed[q.destination] = (uint8_t)((2u << shape[1]) - 1);
    memcpy(table, q.failed, sizeof table);
    q.entries = 0;
    for (uint32_t level = 0; level <= shape[1]; level++) q.entries += bcube_value(plain_switches(q.room, level));
    plain_summarize(q.room, table, q.servers, summary, q.entries);
    if (q.entries && any(8) == 0) summary[any((uint32_t)q.entries)]++;
    memset(q.list, 0, sizeof q.list);
    plain_build(q.room, q.source, q.destination, q.list);
    memcpy(q.path, q.list + BCUBE_PATH_BYTES * any(shape[1] + 1), sizeof q.path);
    if (any(4) == 0) q.path[any(BCUBE_PATH_BYTES)] = (uint8_t)any(256);
    memset(q.met, 0, sizeof q.met);
    plain_read(q.room, q.source, q.destination, q.path, sizeof q.path, q.met);
    memset(q.neighbours, any(2), sizeof q.neighbours);
}

/* ---- the calls: each by a pointer that is the call, or an empty one, from deeper on the stack than what runs there
 * once it has returned, which would hide the first bytes of a call */

#define ENDS q.source, q.destination
#define TABLE q.failed, q.servers
#define WRITTEN table, q.servers, summary, q.entries
#define BYTES uint8_t *, size_t
#define LIST q.list, sizeof q.list
#define PATH q.path, sizeof q.path
#define CALLS                                                                      \
    CALL(uint64_t, version, (), (void))                                            \
    CALL(bcube_room, room_of, (q.value, q.level), (uint64_t, uint64_t))           \
    CALL(bcube_room, filled_room, (q.value, q.level, q.value), (uint64_t, uint64_t, uint64_t)) \
    CALL(bcube_answer, shape, (q.room), (bcube_room))                              \
    CALL(bcube_answer, servers, (q.room), (bcube_room))                            \
    CALL(bcube_answer, bound, (q.room, q.level), (bcube_room, uint64_t))           \
    CALL(bcube_answer, switches, (q.room, q.level), (bcube_room, uint64_t))        \
    CALL(bcube_answer, digits, (q.room, q.source, digits), (bcube_room, uint64_t, uint64_t *)) \
    CALL(bcube_answer, digit, (q.room, q.source, q.level), (bcube_room, uint64_t, uint64_t))   \
    CALL(bcube_answer, address, (q.room, q.value, q.value, q.level, 0), (bcube_room, uint64_t, uint64_t, uint64_t, uint64_t)) \
    CALL(bcube_answer, switch, (q.room, q.source, q.level), (bcube_room, uint64_t, uint64_t))  \
    CALL(bcube_answer, server_at, (q.room, q.level, q.value, q.value), (bcube_room, uint64_t, uint64_t, uint64_t)) \
    CALL(bcube_answer, neighbour, (q.room, q.source, q.level, q.value), (bcube_room, uint64_t, uint64_t, uint64_t)) \
    CALL(bcube_answer, between, (q.room, ENDS), (bcube_room, uint64_t, uint64_t))  \
    CALL(bcube_answer, failed_link, (q.room, q.source, q.level, TABLE), (bcube_room, uint64_t, uint64_t, const uint8_t *, size_t)) \
    CALL(bcube_answer, mark, (q.room, q.source, q.level, WRITTEN), (bcube_room, uint64_t, uint64_t, BYTES, BYTES)) \
    CALL(bcube_answer, clear, (q.room, q.source, q.level, WRITTEN), (bcube_room, uint64_t, uint64_t, BYTES, BYTES)) \
    CALL(bcube_answer, mark_all, (q.room, q.source, WRITTEN), (bcube_room, uint64_t, BYTES, BYTES)) \
    CALL(bcube_answer, clear_all, (q.room, q.source, WRITTEN), (bcube_room, uint64_t, BYTES, BYTES)) \
    CALL(bcube_answer, dead_switch, (q.room, WRITTEN), (bcube_room, const BYTES, const BYTES)) \
    CALL(bcube_answer, summarize, (q.room, TABLE, counted, q.entries), (bcube_room, const BYTES, BYTES)) \
    CALL(bcube_answer, path_byte, (q.room, q.level, q.value), (bcube_room, uint64_t, uint64_t)) \
    CALL(bcube_answer, path_byte_parts, (q.room, q.path[0]), (bcube_room, uint64_t))   \
    CALL(bcube_answer, hop_of, (q.room, q.source, q.path[0]), (bcube_room, uint64_t, uint64_t)) \
    CALL(bcube_answer, read, (q.room, ENDS, PATH, servers), (bcube_room, uint64_t, uint64_t, const uint8_t *, size_t, uint64_t *)) \
    CALL(bcube_answer, write, (q.room, q.met, 2 + q.value % 8, path), (bcube_room, const uint64_t *, size_t, uint8_t *)) \
    CALL(bcube_answer, reverse, (q.room, ENDS, PATH, path), (bcube_room, uint64_t, uint64_t, const uint8_t *, size_t, uint8_t *)) \
    CALL(bcube_answer, check, (q.room, ENDS, TABLE, q.list, 8 * (1 + q.level)), (bcube_room, uint64_t, uint64_t, const uint8_t *, size_t, const uint8_t *, size_t)) \
    CALL(bcube_answer, build, (q.room, ENDS, routes), (bcube_room, uint64_t, uint64_t, uint8_t *)) \
    CALL(bcube_answer, find, (q.room, ENDS, TABLE, path), (bcube_room, uint64_t, uint64_t, const uint8_t *, size_t, uint8_t *)) \
    CALL(bcube_answer, select, (q.room, ENDS, TABLE, routes), (bcube_room, uint64_t, uint64_t, const uint8_t *, size_t, uint8_t *)) \
    CALL(bcube_answer, pick, (q.room, ENDS, TABLE, q.path, 8, q.list, 8 * (1 + q.level)), (bcube_room, uint64_t, uint64_t, const uint8_t *, size_t, const uint8_t *, size_t, const uint8_t *, size_t)) \
    CALL(bcube_stepped, step, (q.room, ENDS, q.level, PATH, q.neighbours, sizeof q.neighbours), (bcube_room, uint64_t, uint64_t, uint64_t, const uint8_t *, size_t, const uint8_t *, size_t)) \
    CALL(bcube_answer, parent, (q.room, q.source, q.level, q.destination), (bcube_room, uint64_t, uint64_t, uint64_t)) \
    CALL(bcube_answer, tree, (q.room, q.source, q.level, parents), (bcube_room, uint64_t, uint64_t, uint32_t *))

#define CALL(form, name, arguments, parameters)                                       \
    __attribute__((noipa)) static form empty_##name parameters { form nothing; memset(&nothing, 0, sizeof nothing); return nothing; } \
    static form(*volatile call_##name) parameters;                                    \
    static void run_##name(void) { volatile uint8_t deeper[256]; deeper[0] = 0; form given = call_##name arguments; (void)given, (void)deeper[0]; }
#pragma GCC diagnostic ignored "-Wunused-parameter"
CALLS
#undef CALL

/* ---- the painted stack */

enum { SIZE = 1 << 17 };
static uint8_t stack[SIZE];
static ucontext_t outside, inside;

/* how much of the paint is gone */
static size_t depth(void (*run)(void), uint8_t paint) {
    memset(stack, paint, SIZE);
    if (getcontext(&inside) != 0) exit(2);
    inside.uc_stack.ss_sp = stack;
    inside.uc_stack.ss_size = SIZE;
    inside.uc_link = &outside;
    makecontext(&inside, run, 0);
    if (swapcontext(&outside, &inside) != 0) exit(2);
    size_t left = 0;
    while (left < SIZE && stack[left] == paint) left++;
    return SIZE - left;
}

/* the most over all questions, by two paints: a byte may have been written that is like one of them */
static size_t most(void (*run)(void)) {
    size_t deepest = 0;
    seed = 1;
    for (int i = 0; i < QUESTIONS; i++) {
        next_question(i);
        for (int paint = 0; paint < 2; paint++) {
            size_t here = depth(run, paint ? 0xa5 : 0x3c);
            if (here > deepest) deepest = here;
        }
    }
    return deepest;
}

int main(void) {
#define CALL(form, name, arguments, parameters)          \
    call_##name = empty_##name;                          \
    size_t empty_##name##_took = most(run_##name);       \
    call_##name = bcube_##name;                          \
    printf("bcube_%s %zu\n", #name, most(run_##name) - empty_##name##_took);
    CALLS
    return 0;
}
