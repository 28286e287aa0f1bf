/* compare [ROUNDS]: puts the same questions to the proved library and to the plain implementation of plain.c,
 * and compares the answers and every buffer, byte for byte.
 *
 * First come the numbers worked by hand, and for each lent buffer a null pointer with no length; then rooms made of
 * any two and of any three numbers, every shape of up to 69 ports, and every call in rooms of damaged shapes; then
 * every room of at most 64 servers, full and half-filled: each server, level, value, switch and port, each link, each
 * ordered pair under several failed-link tables, each path byte as a hop; but only some of the one-level half-filled
 * rooms for links, pairs and path bytes, some of the two-level ones for pairs and path bytes, and some of the one-level
 * full rooms for path bytes; in half-filled rooms each vacant port. A hop by itself is asked in all these rooms, but
 * in some of the one-level half-filled ones only: from each server and from numbers that are none, by each path byte
 * and by numbers that are none; and each hop that is answered, back again.
 *
 * Then walks and meetings: in rooms of few servers every way to go on from a server, hop by hop, until a hop is refused
 * (in some of these rooms as many as a run has time for), read, reversed, checked and written; there too all routes of a
 * pair, every two of them as a list, and some lists of more; and in rooms of four levels, where two routes can share a
 * server and no switch, every two orders in which the digits can be corrected.
 *
 * Then the summary: in rooms of few links every table, and every summary beside some tables; in every room of at most
 * 64 servers each switch dead, alone and beside others; there, but in some of the one-level half-filled ones only, each
 * kind of wrong entry and of wrong length, and marks and clears in a row, with the table and the summary carried along
 * and held to the count after each. All of these in larger rooms too.
 *
 * Then the spanning trees: in every room of at most 64 servers every tree of every source whole, and the parent of every
 * server; in larger rooms those of some sources. Of each tree it is held that a parent and its child are neighbours, that
 * from every server the parents lead to the source in exactly the steps of the rules, the most of which are met, and
 * that no hop stands in two trees of a source. And the refusals of a room, a source, a tree and a server in every mixture.
 *
 * Last as many rounds (1 if not said) of questions of any kind in rooms of every size, with arguments and buffers
 * damaged in every way that the rules name, and numbers of up to 64 bits. The same numbers give the same run.
 * Prints the counts by call and by refusal, and by the kinds of 15, 28 and 29; status 1 if anything differs, or a refusal
 * or a kind of it was met fewer than 100 times by a call that can give it. */
#include "both.h"

#include "bcube.h"
#include "plain.h"

#include <stdio.h>
#include <stdlib.h>
#include <string.h>
#include <time.h>
#include <unistd.h>

enum { ARRAY = 8, MOST = 4096, SMALL = 64 };

/* ---- numbers that repeat from run to run */

static uint64_t seed = 1;

static uint32_t any(uint32_t below) {
    seed = seed * 6364136223846793005u + 1442695040888963407u;
    return (uint32_t)((seed >> 33) % below);
}

/* a number that a call should not be given, or should only just be; above 2^32 its low bits may be right */
static uint64_t odd(void) {
    static const uint64_t edge[] = {0, 1, 2, 3, 4, 5, 7, 8, 9, 31, 32, 33, 63, 64, 65, 127, 128, 255, 256, 257, 511, 512,
                                    4095, 4096, 4097, 65535, 65536, 65537, 0x20000000, 0x40000000, 0x7fffffff,
                                    0x80000000, 0x80000001, 0xfffffffe, 0xffffffff, 0x100000000, 0x100000001,
                                    0x100000008, 0x200000003, 0x7fffffffffffffff, 0x8000000000000000,
                                    0x8000000000000001, 0xfffffffffffffffe, 0xffffffffffffffff};
    if (any(8) == 0) return any(0x80000000);
    if (any(8) == 0) return (uint64_t)any(0x80000000) << (1 + any(33)) | any(64);
    return edge[any(sizeof edge / sizeof *edge)];
}

/* ---- the room that the questions are about, its failed-link table, and the summary of that */

static uint32_t n, k, m, servers, entries; /* entries: of the summary, one for each switch */
static bcube_room room;
static uint8_t failed[MOST + ARRAY], summary[MOST + ARRAY];
static uint8_t neighbours[BCUBE_NEIGHBOUR_TABLE_BYTES + ARRAY];

static uint32_t power(uint32_t base, uint32_t exponent) {
    uint32_t result = 1;
    while (exponent-- > 0) result *= base;
    return result;
}

/* how many values a digit at this level has, */
static uint32_t bound(uint32_t level) { return level == k ? m : n; }

/* and how many switches the level */
static uint32_t switches_at(uint32_t level) { return servers / bound(level); }

static void enter(uint32_t ports, uint32_t levels, uint32_t fill) {
    n = ports;
    k = levels;
    m = fill;
    servers = m * power(n, k);
    entries = 0;
    for (uint32_t level = 0; level <= k; level++) entries += switches_at(level);
    room = plain_filled_room(n, k, m);
    memset(failed, 0, sizeof failed);
    memset(summary, 0, sizeof summary);
}

static void enter_full(uint32_t ports, uint32_t levels) { enter(ports, levels, ports); }

/* rooms of every form: full ones, and half-filled ones, some of which would have more than 4,096 servers if full */
static const uint32_t chosen[][3] = {{8, 3, 8}, {16, 2, 16}, {64, 1, 64}, {64, 0, 64}, {7, 3, 7}, {6, 3, 6}, {5, 3, 5},
                                     {4, 3, 4}, {3, 3, 3}, {2, 3, 2}, {8, 3, 4}, {8, 3, 2}, {9, 3, 5}, {12, 3, 2},
                                     {17, 2, 14}, {45, 2, 2}, {64, 0, 2}, {4, 1, 2}, {3, 2, 2}, {4, 2, 3}};
enum { CHOSEN = sizeof chosen / sizeof *chosen };

static void enter_chosen(uint32_t i) { enter(chosen[i][0], chosen[i][1], chosen[i][2]); }

/* full as often as not */
static uint32_t any_fill(uint32_t ports) { return any(2) ? ports : 2 + any(ports - 1); }

static void enter_any(uint32_t ports, uint32_t levels) { enter(ports, levels, any_fill(ports)); }

static uint32_t digit_of(uint32_t server, uint32_t level) { return server / power(n, level) % n; }

/* the server at the other end of a hop, whatever the byte */
static uint32_t after(uint32_t server, uint8_t byte) {
    bcube_answer next = plain_neighbour(room, server, byte / 64, byte % 64);
    return bcube_refusal(next) ? server : bcube_value(next);
}

static uint32_t another(uint32_t server) { return (server + 1 + any(servers - 1)) % servers; }

/* every link fails with a chance of one in so many; 0: none does */
static void fail_links(uint32_t one_in) {
    memset(failed, 0, sizeof failed);
    for (uint32_t a = 0; a < servers && one_in; a++)
        for (uint32_t level = 0; level <= k; level++)
            if (any(one_in) == 0) failed[a] = (uint8_t)(failed[a] | 1u << level);
}

static void kill_server(uint32_t server) { failed[server] = (uint8_t)(power(2, k + 1) - 1); }

/* the server at a port of a switch: its digits are those of the number, with the port put in at the level */
static uint32_t at_port(uint32_t level, uint32_t number, uint32_t port) {
    uint32_t weight = power(n, level);
    return number / weight * weight * n + port * weight + number % weight;
}

static void kill_switch(uint32_t level, uint32_t number) {
    for (uint32_t port = 0; port < bound(level); port++)
        failed[at_port(level, number, port)] |= (uint8_t)(1u << level);
}

/* the summary of the table as it is now */
static void summarize(void) { plain_summarize(room, failed, servers, summary, entries); }

/* where the entry of a server's switch at a level stands; any place, for a server or a level that there is not */
static uint32_t entry_of(uint64_t server, uint64_t level) {
    bcube_answer number = plain_switch(room, server, level);
    if (bcube_refusal(number)) return any(entries);
    uint32_t place = bcube_value(number);
    for (uint32_t lower = 0; lower < level; lower++) place += switches_at(lower);
    return place;
}

/* fails a link of some hop of some built routes of this pair, so that there is something to replace */
static void break_routes(uint32_t source, uint32_t destination) {
    uint8_t routes[BCUBE_LIST_BYTES];
    uint64_t on[9];
    plain_build(room, source, destination, routes);
    for (uint32_t i = 0; i <= k; i++) {
        const uint8_t *array = routes + ARRAY * i;
        uint32_t hop = any(bcube_value(plain_read(room, source, destination, array, ARRAY, on)) - 1);
        if (any(3)) failed[on[hop + any(2)]] |= (uint8_t)(1u << array[hop] / 64);
    }
}

/* a neighbour table; most flags say available */
static void fill_neighbours(void) {
    for (size_t i = 0; i < sizeof neighbours; i++) neighbours[i] = (uint8_t)any(256);
    for (size_t i = BCUBE_NEIGHBOUR_FLAG; i < BCUBE_NEIGHBOUR_TABLE_BYTES; i += BCUBE_NEIGHBOUR_ENTRY_BYTES)
        neighbours[i] = any(4) ? BCUBE_NEIGHBOUR_AVAILABLE : (uint8_t)any(256);
}

/* ---- questions */

static struct question about(enum call call, uint64_t first, uint64_t second, uint64_t third, uint64_t fourth) {
    struct question q = {.call = call, .room = room, .number = {first, second, third, fourth}};
    return q;
}

static void lend(struct question *q, int i, const void *at, size_t len) {
    q->lent[i].at = at;
    q->lent[i].len = len;
}

static bcube_answer ask_word(const struct question *q) { return (bcube_answer){ask(q).word}; }

static bcube_answer ask_numbers(enum call call, uint64_t first, uint64_t second, uint64_t third, uint64_t fourth) {
    struct question q = about(call, first, second, third, fourth);
    return ask_word(&q);
}

/* the calls with the failed-link table of the room, and for those that take them a list or two */
static bcube_answer ask_table(enum call call, uint64_t first, uint64_t second) {
    struct question q = about(call, first, second, 0, 0);
    lend(&q, 0, failed, servers);
    return ask_word(&q);
}

/* the calls with the table and its summary */
static bcube_answer ask_summary(enum call call, uint64_t server, uint64_t level) {
    struct question q = about(call, server, level, 0, 0);
    lend(&q, 0, failed, servers);
    lend(&q, 1, summary, entries);
    return ask_word(&q);
}

/* a mark or a clear, of which the table and the summary are taken on; */
static bcube_answer carry(enum call call, uint64_t server, uint64_t level) {
    bcube_answer given = ask_summary(call, server, level);
    memcpy(failed, left(), servers);
    memcpy(summary, left_summary(), entries);
    return given;
}

/* the summary then has to be the one counted afresh, over any bytes */
static void hold_to_count(void) {
    static uint8_t anything[MOST];
    struct question q = about(SUMMARIZE, 0, 0, 0, 0);
    anything[any(MOST)] = (uint8_t)any(256);
    lend(&q, 0, failed, servers);
    lend(&q, 1, anything, entries);
    ask(&q);
    if (memcmp(left_summary(), summary, entries) != 0) not_as_counted(&q);
}

static bcube_answer ask_check(uint32_t source, uint32_t destination, const uint8_t *list, size_t len) {
    struct question q = about(CHECK, source, destination, 0, 0);
    lend(&q, 0, failed, servers);
    lend(&q, 1, list, len);
    return ask_word(&q);
}

static bcube_answer ask_pick(uint32_t source, uint32_t destination, const uint8_t *fresh, size_t fresh_len,
                         const uint8_t *kept, size_t kept_len) {
    struct question q = about(PICK, source, destination, 0, 0);
    lend(&q, 0, failed, servers);
    lend(&q, 1, fresh, fresh_len);
    lend(&q, 2, kept, kept_len);
    return ask_word(&q);
}

static bcube_answer ask_path(enum call call, uint32_t source, uint32_t destination, const uint8_t *path) {
    struct question q = about(call, source, destination, 0, 0);
    lend(&q, 0, path, ARRAY);
    return ask_word(&q);
}

static void ask_step(uint32_t here, uint32_t destination, uint32_t index, const uint8_t *path) {
    struct question q = about(STEP, here, destination, index, 0);
    lend(&q, 0, path, ARRAY);
    lend(&q, 1, neighbours, BCUBE_NEIGHBOUR_TABLE_BYTES);
    ask(&q);
}

static void ask_write(const uint64_t *met, size_t count) {
    struct question q = about(WRITE, 0, 0, 0, 0);
    lend(&q, 0, met, count);
    ask(&q);
}

/* ---- the numbers worked by hand */

static uint64_t refused(uint32_t number, uint32_t route, uint32_t hop) { return number | route << 8 | hop << 16; }

/* with the earlier route and hop that it names */
static uint64_t naming(uint64_t word, uint32_t route, uint32_t hop) { return word | (uint64_t)(16 * route + hop) << 24; }

static uint64_t valued(uint32_t value) { return (uint64_t)value << 32; }

/* the answer has to be this word, and these bytes have to be left */
static void worked(struct question q, uint64_t word, const void *bytes, size_t size) {
    answer given = ask(&q);
    if (given.word != word || memcmp(left(), bytes, size) != 0) not_as_worked(&q, given, (answer){word, 0});
}

static struct question with(struct question q, const void *at, size_t len) {
    lend(&q, q.lent[0].at ? 1 : 0, at, len);
    return q;
}

/* the same of a call that writes to a table and its summary, or to the summary alone: these have to be left */
static void worked_both(struct question q, uint64_t word, const void *in_table, const void *in_summary) {
    worked(q, word, in_table, q.call == SUMMARIZE ? 0 : q.lent[0].len);
    if (memcmp(left_summary(), in_summary, q.lent[1].len) != 0) not_as_worked(&q, (answer){word, 0}, (answer){word, 0});
}

static void worked_addresses(void) {
    static const uint64_t digits[4] = {1, 1, 0, 1}, top[4] = {7, 7, 7, 7};
    enter_full(8, 3);
    worked(about(ADDRESS, 1, 0, 0, 0), valued(1), "", 0);
    worked(about(ADDRESS, 1, 1, 0, 1), valued(521), "", 0);
    worked(about(DIGITS, 521, 0, 0, 0), 0, digits, sizeof digits);
    worked(about(DIGITS, 4095, 0, 0, 0), 0, top, sizeof top);
    worked(about(DIGITS, 4096, 0, 0, 0), refused(4, 0, 0), "", 0);
    worked(about(VERSION, 0, 0, 0, 0), BCUBE_VERSION, "", 0);
}

/* the last that are rooms, the first that are none, and where more than one of 1, 2, 26 and 3 applies the first */
static void worked_shapes(void) {
    static const struct { uint32_t n, k, m, why; } shapes[] = {
        {8, 3, 8, 0}, {16, 2, 16, 0}, {64, 1, 64, 0}, {64, 0, 64, 0}, {2, 0, 2, 0}, {9, 3, 9, 3}, {17, 2, 17, 3},
        {65, 0, 65, 1}, {1, 2, 1, 1}, {2, 4, 2, 2}, {65, 4, 65, 1}, {64, 4, 64, 2},
        {8, 3, 4, 0}, {8, 3, 2, 0}, {9, 3, 5, 0}, {12, 3, 2, 0}, {17, 2, 14, 0}, {45, 2, 2, 0}, {64, 0, 2, 0},
        {9, 3, 6, 3}, {13, 3, 2, 3}, {17, 2, 15, 3}, {46, 2, 2, 3}, {64, 3, 2, 3}, {8, 3, 1, 26}, {8, 3, 0, 26},
        {8, 3, 9, 26}, {2, 0, 1, 26}, {2, 0, 3, 26}, {64, 0, 65, 26}, {9, 3, 10, 26}, {64, 3, 65, 26}, {64, 3, 1, 26},
        {64, 4, 65, 2}, {8, 4, 1, 2}, {64, 4, 0, 2}, {65, 4, 66, 1}, {65, 3, 66, 1}, {1, 0, 2, 1}, {0, 4, 0, 1}};
    for (size_t i = 0; i < sizeof shapes / sizeof *shapes; i++) {
        uint64_t number = shapes[i].n + 256 * shapes[i].k + 65536 * shapes[i].m;
        worked(about(FILLED_ROOM, shapes[i].n, shapes[i].k, shapes[i].m, 0), number, "", 0);
        if (shapes[i].m == shapes[i].n) worked(about(ROOM_OF, shapes[i].n, shapes[i].k, 0, 0), number, "", 0);
        room.number = number;
        worked(about(SHAPE, 0, 0, 0, 0), shapes[i].why, "", 0);
    }
    worked(about(ROOM_OF, 256, 3, 0, 0), 255 + 256 * 3 + 65536 * 255, "", 0);
    worked(about(ROOM_OF, 8, 256, 0, 0), 8 + 256 * 255 + 65536 * 8, "", 0);
    worked(about(ROOM_OF, UINT64_C(1) << 32 | 8, UINT64_MAX, 0, 0), 255 + 256 * 255 + 65536 * 255, "", 0);
    worked(about(FILLED_ROOM, 256, 3, 4, 0), 255 + 256 * 3 + 65536 * 4, "", 0);
    worked(about(FILLED_ROOM, UINT64_C(1) << 32 | 8, UINT64_MAX, 256, 0), 255 + 256 * 255 + 65536 * 255, "", 0);
    worked(about(FILLED_ROOM, 8, 3, UINT64_MAX, 0), 8 + 256 * 3 + 65536 * 255, "", 0);
    /* no fill, as in a number of version 2; and fills above 255, some so large that 64^3 times them is 2^64 */
    static const uint64_t none[] = {0, 256, 258, UINT64_C(1) << 46, (UINT64_C(1) << 46) + 2, (UINT64_C(1) << 48) - 1};
    for (size_t i = 0; i < sizeof none / sizeof *none; i++) {
        room.number = 64 + 256 * 3 + (none[i] << 16);
        worked(about(SHAPE, 0, 0, 0, 0), 26, "", 0);
    }
}

/* half-filled rooms: 256 switches on each of the levels 0 to 2 of (8,3,4), and 512 on level 3; digits, addresses */
static void worked_half_filled(void) {
    static const uint64_t top[4] = {7, 7, 7, 3};
    enter(8, 3, 4);
    worked(about(SERVERS, 0, 0, 0, 0), valued(2048), "", 0);
    for (uint32_t level = 0; level < 4; level++) {
        worked(about(BOUND, level, 0, 0, 0), valued(level < 3 ? 8 : 4), "", 0);
        worked(about(SWITCHES, level, 0, 0, 0), valued(level < 3 ? 256 : 512), "", 0);
    }
    worked(about(DIGITS, 2047, 0, 0, 0), 0, top, sizeof top);
    worked(about(DIGITS, 2048, 0, 0, 0), refused(4, 0, 0), "", 0);
    worked(about(ADDRESS, 0, 0, 4, 0), valued(256), "", 0);
    worked(about(ADDRESS, 0, 0, 0, 4), refused(21, 0, 0), "", 0);
    worked(about(SERVER_AT, 3, 511, 3, 0), valued(2047), "", 0);
    worked(about(SERVER_AT, 3, 511, 4, 0), refused(21, 0, 0), "", 0);
    worked(about(SERVER_AT, 0, 256, 0, 0), refused(21, 0, 0), "", 0);
    enter(12, 3, 2);
    worked(about(SERVERS, 0, 0, 0, 0), valued(3456), "", 0);
    worked(about(SWITCH, 3455, 3, 0, 0), valued(1727), "", 0);
    worked(about(SWITCH, 3455, 0, 0, 0), valued(287), "", 0);
    enter(64, 0, 2);
    worked(about(BOUND, 0, 0, 0, 0), valued(2), "", 0);
    worked(about(SWITCHES, 0, 0, 0, 0), valued(1), "", 0);
}

/* and routes there: the detour at level k goes from 3 to 0 in (8,3,4), and to the other half and back in (8,3,2) */
static void worked_half_filled_routes(void) {
    static const uint8_t to_0[32] = {0xc0, 0x41, 0xc3, 0, 0, 0, 0, 0, 0x81, 0x41, 0x80, 0, 0, 0, 0, 0,
                                     0x41, 0, 0, 0, 0, 0, 0, 0, 0x02, 0x41, 0x01};
    static const uint8_t other[32] = {0xc0, 0x02, 0xc1, 0, 0, 0, 0, 0, 0x81, 0x02, 0x80, 0, 0, 0, 0, 0,
                                      0x41, 0x02, 0x40, 0, 0, 0, 0, 0, 0x02};
    static const uint8_t by_2[8] = {0x42, 3, 0x40}, both[16] = {0x41, 3, 0, 0, 0, 0, 0, 0, 3, 0x41};
    static const uint64_t met[9] = {0, 8, 11, 3};
    enter(8, 3, 4);
    worked(about(BUILD, 1537, 1545, 0, 0), valued(4), to_0, 32);
    enter(8, 3, 2);
    worked(about(BUILD, 513, 514, 0, 0), valued(4), other, 32);
    enter_full(4, 1);
    worked(with(about(READ, 0, 3, 0, 0), by_2, 8), valued(4), met, sizeof met);
    enter(4, 1, 2);
    worked(with(about(READ, 0, 3, 0, 0), by_2, 8), refused(9, 1, 1), "", 0);
    worked(with(with(about(CHECK, 0, 7, 0, 0), failed, 8), both, 16), 0, "", 0);
    worked(with(with(about(CHECK, 0, 7, 0, 0), failed, 16), both, 16), refused(6, 0, 0), "", 0);
}

/* the switch of server 521 at level 1 is 65, where it is at port 1; byte c1 is level 3, value 1 */
static void worked_wiring(void) {
    enter_full(8, 3);
    worked(about(SWITCHES, 1, 0, 0, 0), valued(512), "", 0);
    worked(about(SWITCH, 521, 1, 0, 0), valued(65), "", 0);
    worked(about(SERVER_AT, 1, 65, 1, 0), valued(521), "", 0);
    worked(about(SERVER_AT, 1, 512, 1, 0), refused(21, 0, 0), "", 0);
    worked(about(SERVER_AT, 1, 65, 8, 0), refused(21, 0, 0), "", 0);
    worked(about(SERVER_AT, 4, 65, 8, 0), refused(20, 0, 0), "", 0);
    worked(about(PATH_BYTE, 3, 1, 0, 0), valued(0xc1), "", 0);
    worked(about(PATH_BYTE, 4, 8, 0, 0), refused(20, 0, 0), "", 0);
    worked(about(PATH_BYTE, 3, 8, 0, 0), refused(21, 0, 0), "", 0);
    worked(about(PATH_BYTE_PARTS, 0xc1, 0, 0, 0), valued(256 * 3 + 1), "", 0);
    worked(about(PATH_BYTE_PARTS, 8, 0, 0, 0), refused(9, 1, 1), "", 0);
    worked(about(PATH_BYTE_PARTS, 256, 0, 0, 0), refused(8, 1, 1), "", 0);
}

/* a hop by itself: a number above 255 is no byte; a server that there is not comes first, and a room before it */
static void worked_hops(void) {
    static const struct {
        uint32_t n, k, m, why;
        uint64_t server, byte;
        uint32_t next, level, old;
    } hops[] = {
        {8, 3, 8, 0, 1, 0xc1, 513, 3, 0},        {8, 3, 4, 0, 2047, 0xc0, 511, 3, 3},  {2, 0, 2, 0, 1, 0x00, 0, 0, 1},
        {8, 3, 8, 0, 4095, 0x83, 3839, 2, 7},    {64, 1, 64, 0, 4095, 0x40, 63, 1, 63}, {64, 0, 2, 0, 0, 0x01, 1, 0, 0},
        {45, 2, 2, 0, 4049, 0x80, 2024, 2, 1},   {8, 3, 4, 9, 2047, 0xc4, 0, 0, 0},    {4, 1, 4, 8, 0, 0x80, 0, 0, 0},
        {4, 1, 4, 10, 7, 0x41, 0, 0, 0},         {4, 1, 4, 8, 0, 0xbf, 0, 0, 0},       {4, 1, 4, 9, 0, 0x04, 0, 0, 0},
        {8, 3, 8, 8, 1, 256, 0, 0, 0},           {8, 3, 8, 8, 1, 256 + 0xc1, 0, 0, 0}, {8, 3, 8, 8, 1, UINT64_MAX, 0, 0, 0},
        {8, 3, 8, 8, 1, (UINT64_C(1) << 32) + 0xc1, 0, 0, 0}, {8, 3, 4, 4, 2048, 0xc4, 0, 0, 0},
        {4, 1, 4, 4, 16, 256, 0, 0, 0},          {4, 1, 4, 4, (UINT64_C(1) << 32) + 1, 0x41, 0, 0, 0},
        {9, 3, 9, 3, 9999, 256, 0, 0, 0},        {8, 3, 9, 26, 9999, 256, 0, 0, 0},    {8, 4, 9, 2, 9999, 256, 0, 0, 0},
        {65, 4, 9, 1, 9999, 256, 0, 0, 0}};
    for (size_t i = 0; i < sizeof hops / sizeof *hops; i++) {
        uint32_t placed = hops[i].why >= 8 && hops[i].why <= 10, back = 64 * hops[i].level + hops[i].old;
        room = plain_filled_room(hops[i].n, hops[i].k, hops[i].m);
        uint64_t word = hops[i].why ? refused(hops[i].why, placed, placed) : valued(65536 * back + hops[i].next);
        bcube_answer hop = {word};
        struct question q = about(HOP_OF, hops[i].server, hops[i].byte, 0, 0);
        worked(q, word, "", 0);
        if (bcube_hop_next(hop) != hops[i].next || bcube_hop_level(hop) != hops[i].level ||
            bcube_hop_old(hop) != hops[i].old || bcube_hop_back(hop) != back)
            not_as_worked(&q, (answer){word, 0}, (answer){word, 0});
    }
}

/* a table of eight bytes and a summary of six, or of as many as are said, before a call and after it */
struct worked_summary {
    enum call call;
    uint32_t server, level;
    uint8_t table[8], summary[8], len;
    uint64_t word;
    uint8_t table_left[8], summary_left[8];
};

/* (4,1,2): level 0 has the switches 0 and 1, level 1 the switches 0 to 3, and switch x there the servers x and x + 4 */
static void worked_summaries(void) {
    static const uint64_t found = UINT64_C(1) << 56; /* level 0, number 0; a level is 2^48 more, a number 2^32 */
    const struct worked_summary rows[] = {
        /* level 1, number 1 is entry 3; a mark made again counts once; the switch is dead with its second link */
        {MARK, 5, 1, {0}, {0}, 6, 0, {0, 0, 0, 0, 0, 2}, {0, 0, 0, 1}},
        {MARK, 5, 1, {0, 0, 0, 0, 0, 2}, {0, 0, 0, 1}, 6, 0, {0, 0, 0, 0, 0, 2}, {0, 0, 0, 1}},
        {MARK, 1, 1, {0, 0, 0, 0, 0, 2}, {0, 0, 0, 1}, 6, 0, {0, 2, 0, 0, 0, 2}, {0, 0, 0, 2}},
        {DEAD_SWITCH, 0, 0, {0, 2, 0, 0, 0, 2}, {0, 0, 0, 2}, 6, found + (UINT64_C(65537) << 32), {0}, {0}},
        {CLEAR, 5, 1, {0, 2, 0, 0, 0, 2}, {0, 0, 0, 2}, 6, 0, {0, 2}, {0, 0, 0, 1}},
        {CLEAR, 5, 1, {0, 2}, {0, 0, 0, 1}, 6, 0, {0, 2}, {0, 0, 0, 1}},
        {DEAD_SWITCH, 0, 0, {0, 2}, {0, 0, 0, 1}, 6, 0, {0}, {0}},
        /* level 0, number 0 is an answer; of two dead switches the lower level, and of one level the lower number */
        {DEAD_SWITCH, 0, 0, {1, 1, 1, 1}, {4}, 6, found, {0}, {0}},
        {DEAD_SWITCH, 0, 0, {0, 0, 0, 2, 1, 1, 1, 3}, {0, 4, 0, 0, 0, 2}, 6, found + (UINT64_C(1) << 32), {0}, {0}},
        {DEAD_SWITCH, 0, 0, {0, 2, 0, 2, 0, 2, 0, 2}, {0, 0, 0, 2, 0, 2}, 6, found + (UINT64_C(65537) << 32), {0}, {0}},
        {DEAD_SWITCH, 0, 0, {0, 0, 0, 2, 0, 0, 0, 2}, {0, 0, 0, 0, 0, 2}, 6, found + (UINT64_C(65539) << 32), {0}, {0}},
        {DEAD_SWITCH, 0, 0, {0}, {0}, 6, 0, {0}, {0}},
        /* a wrong entry: where it is touched, where the mark would change nothing too, and elsewhere, where it stays */
        {MARK, 5, 1, {0}, {0, 0, 0, 1}, 6, 30, {0}, {0, 0, 0, 1}},
        {MARK, 5, 1, {0, 0, 0, 0, 0, 2}, {0}, 6, 30, {0, 0, 0, 0, 0, 2}, {0}},
        {CLEAR, 5, 1, {0}, {0, 0, 0, 2}, 6, 30, {0}, {0, 0, 0, 2}},
        {MARK, 5, 1, {0}, {9, 0, 0, 0, 0, 7}, 6, 0, {0, 0, 0, 0, 0, 2}, {9, 0, 0, 1, 0, 7}},
        {DEAD_SWITCH, 0, 0, {0}, {9, 0, 0, 0, 0, 7}, 6, 30, {0}, {0}},
        {SUMMARIZE, 0, 0, {0, 2, 0, 0, 0, 3}, {9, 0, 0, 0, 0, 7}, 6, 0, {0}, {0, 1, 0, 2}},
        /* all links of a server: entries 1 and 3 for server 5, either of them wrong, and one elsewhere */
        {MARK_ALL, 5, 0, {0, 2}, {0, 0, 0, 1}, 6, 0, {0, 2, 0, 0, 0, 3}, {0, 1, 0, 2}},
        {MARK_ALL, 5, 0, {0, 2, 0, 0, 0, 1}, {0, 1, 0, 1}, 6, 0, {0, 2, 0, 0, 0, 3}, {0, 1, 0, 2}},
        {CLEAR_ALL, 5, 0, {0, 2, 0, 0, 0, 3}, {0, 1, 0, 2}, 6, 0, {0, 2}, {0, 0, 0, 1}},
        {MARK_ALL, 5, 0, {0}, {0, 1, 0, 0}, 6, 30, {0}, {0, 1, 0, 0}},
        {MARK_ALL, 5, 0, {0}, {0, 0, 0, 1}, 6, 30, {0}, {0, 0, 0, 1}},
        {CLEAR_ALL, 5, 0, {0}, {7, 0, 7, 0, 7, 7}, 6, 0, {0}, {7, 0, 7, 0, 7, 7}},
        {MARK_ALL, 8, 0, {0}, {0}, 6, 4, {0}, {0}},
        /* a length that is not six, in every call; a bit above k comes before it; and a level before both */
        {MARK, 5, 1, {0}, {0}, 8, 30, {0}, {0}},
        {MARK, 5, 1, {4}, {0}, 8, 6, {4}, {0}},
        {MARK, 5, 2, {4}, {0}, 8, 20, {4}, {0}},
        {CLEAR, 5, 1, {0}, {0}, 5, 30, {0}, {0}},
        {MARK_ALL, 5, 0, {0}, {0}, 7, 30, {0}, {0}},
        {CLEAR_ALL, 5, 0, {8}, {0}, 7, 6, {8}, {0}},
        {DEAD_SWITCH, 0, 0, {0}, {0}, 8, 30, {0}, {0}},
        {DEAD_SWITCH, 0, 0, {4}, {9}, 6, 6, {0}, {0}},
        {SUMMARIZE, 0, 0, {1}, {9, 9, 9, 9, 9}, 5, 30, {0}, {9, 9, 9, 9, 9}},
        {SUMMARIZE, 0, 0, {4}, {9, 9, 9, 9, 9}, 5, 6, {0}, {9, 9, 9, 9, 9}}};
    enter(4, 1, 2);
    for (size_t i = 0; i < sizeof rows / sizeof *rows; i++) {
        const struct worked_summary *row = &rows[i];
        struct question q = with(about(row->call, row->server, row->level, 0, 0), row->table, 8);
        q = with(q, row->summary, row->len);
        if (row->call == DEAD_SWITCH) worked(q, row->word, "", 0);
        else worked_both(q, row->word, row->table_left, row->summary_left);
    }
}

/* all links of a server marked over zeros: its byte, and these entries of so many */
static void worked_entries(uint32_t server, uint32_t so_many, const uint32_t *at) {
    static const uint8_t zeros[MOST];
    uint8_t in_table[MOST] = {0}, in_summary[MOST] = {0};
    in_table[server] = (uint8_t)(power(2, k + 1) - 1);
    for (uint32_t level = 0; level <= k; level++) in_summary[at[level]] = 1;
    struct question q = with(with(about(MARK_ALL, server, 0, 0, 0), zeros, servers), zeros, so_many);
    worked_both(q, 0, in_table, in_summary);
    q = with(with(about(CLEAR_ALL, server, 0, 0, 0), in_table, servers), in_summary, so_many);
    worked_both(q, 0, zeros, zeros);
}

/* where entries stand: level l begins at l times m n^(k-1) */
static void worked_places(void) {
    enter(8, 3, 4);
    worked_entries(0, 1280, (const uint32_t[]){0, 256, 512, 768});
    worked_entries(2047, 1280, (const uint32_t[]){255, 511, 767, 1279});
    enter(12, 3, 2);
    worked_entries(3455, 2592, (const uint32_t[]){287, 575, 863, 2591});
    enter(45, 2, 2);
    worked_entries(4049, 2205, (const uint32_t[]){89, 179, 2204});
    enter_full(8, 3);
    worked_entries(521, 2048, (const uint32_t[]){65, 512 + 65, 1024 + 73, 1536 + 9});
    enter_full(64, 1);
    worked_entries(4095, 128, (const uint32_t[]){63, 127});
    enter(64, 0, 2);
    worked_entries(1, 1, (const uint32_t[]){0});
}

/* each lent buffer as a null pointer with no length, the others as they should be: a good empty buffer */
static void worked_nothing(void) {
    static const uint8_t list[8] = {0x41, 3};
    enter_full(4, 1);
    worked(about(FAILED_LINK, 0, 0, 0, 0), refused(6, 0, 0), "", 0);
    for (uint32_t call = MARK; call <= SUMMARIZE; call++) {
        struct question both = about((enum call)call, 0, 0, 0, 0), first = both, second = both;
        lend(&first, 0, failed, servers);
        lend(&second, 1, summary, entries);
        worked(both, refused(6, 0, 0), "", 0);
        worked(first, refused(30, 0, 0), "", 0);
        worked(second, refused(6, 0, 0), "", 0);
    }
    worked(about(READ, 0, 7, 0, 0), refused(7, 0, 0), "", 0);
    worked(about(REVERSE, 0, 7, 0, 0), refused(7, 0, 0), "", 0);
    worked(about(WRITE, 0, 0, 0, 0), refused(22, 0, 0), "", 0);
    worked(about(FIND, 0, 7, 0, 0), refused(6, 0, 0), "", 0);
    worked(about(SELECT, 0, 7, 0, 0), refused(6, 0, 0), "", 0);
    struct question q = about(CHECK, 0, 7, 0, 0);
    lend(&q, 0, failed, servers);
    worked(q, refused(7, 0, 0), "", 0);
    q = about(CHECK, 0, 7, 0, 0);
    lend(&q, 1, list, 8);
    worked(q, refused(6, 0, 0), "", 0);
    q = about(PICK, 0, 7, 0, 0);
    lend(&q, 0, failed, servers);
    worked(q, refused(16, 0, 0), "", 0);
    lend(&q, 2, list, 8);
    worked(q, valued(256 * BCUBE_KEPT + 1), "", 0);
    lend(&q, 1, list, 8);
    lend(&q, 2, NULL, 0);
    worked(q, valued(256 * BCUBE_FRESH + 1), "", 0);
    lend(&q, 0, NULL, 0);
    worked(q, refused(6, 0, 0), "", 0);
    q = about(STEP, 0, 7, 0, 0);
    lend(&q, 1, neighbours, BCUBE_NEIGHBOUR_TABLE_BYTES);
    worked(q, 7, "", 0);
    q = about(STEP, 0, 7, 0, 0);
    lend(&q, 0, list, 8);
    worked(q, 17, "", 0);
}

static void worked_routes(void) {
    static const uint8_t figure4[32] = {0xc1, 0x41, 0, 0, 0, 0, 0, 0, 0x81, 0x41, 0xc1, 0x80, 0, 0, 0, 0,
                                        0x41, 0xc1, 0, 0, 0, 0, 0, 0, 0x02, 0xc1, 0x41, 0x01, 0, 0, 0, 0};
    static const uint8_t back[8] = {0x40, 0xc0}, built[32] = {0x41, 3, 0, 0, 0, 0, 0, 0, 3, 0x41};
    static const uint8_t around[32] = {0x41, 3, 0, 0, 0, 0, 0, 0, 1, 0x42, 3, 0x41}, zero[32] = {0};
    static const uint64_t last_two[9] = {1, 0};
    enter_full(8, 3);
    worked(about(BUILD, 1, 521, 0, 0), valued(4), figure4, 32);
    worked(with(about(REVERSE, 1, 521, 0, 0), figure4, 8), 0, back, 8);
    enter_full(4, 1);
    worked(about(BUILD, 0, 7, 0, 0), valued(2), built, 32);
    kill_server(3);
    worked(with(about(SELECT, 0, 7, 0, 0), failed, servers), valued(2), around, 32);
    enter_full(2, 0);
    worked(about(BUILD, 1, 0, 0, 0), valued(1), zero, 32);
    worked(with(about(READ, 1, 0, 0, 0), zero, 8), valued(2), last_two, sizeof last_two);
    worked(about(BUILD, 0, 0, 0, 0), refused(5, 0, 0), "", 0);
}

static void worked_refusals(void) {
    static const uint8_t twice[16] = {3, 0, 0, 0, 0, 0, 0, 0, 3}, same[8] = {1, 3}, eight[8] = {8}, level[8] = {0x80};
    enter_full(4, 1);
    worked(with(about(READ, 0, 3, 0, 0), same, 8), naming(refused(29, 1, 2), 0, 1), "", 0);
    worked(with(with(about(CHECK, 0, 3, 0, 0), failed, servers), twice, 16), naming(refused(15, 2, 1), 1, 1), "", 0);
    worked(with(about(READ, 0, 3, 0, 0), level, 8), refused(8, 1, 1), "", 0);
    worked(with(with(about(STEP, 3, 3, 8, 0), twice, 8), neighbours, BCUBE_NEIGHBOUR_TABLE_BYTES), 1 << 16, "", 0);
    worked(with(with(about(STEP, 0, 3, 8, 0), twice, 8), neighbours, BCUBE_NEIGHBOUR_TABLE_BYTES), 18, "", 0);
    enter_full(8, 3);
    worked(with(about(READ, 0, 3, 0, 0), eight, 8), refused(9, 1, 1), "", 0);
}

/* a refusal that names an earlier place, as the accessors read it */
static void worked_place(struct question q, uint32_t why, uint32_t route, uint32_t hop, uint32_t earlier_route,
                         uint32_t earlier_hop) {
    bcube_answer word = {naming(refused(why, route, hop), earlier_route, earlier_hop)};
    worked(q, word.word, "", 0);
    if (bcube_refusal(word) != why || bcube_route(word) != route || bcube_hop(word) != hop || bcube_value(word) != 0 ||
        bcube_earlier_route(word) != earlier_route || bcube_earlier_hop(word) != earlier_hop)
        not_as_worked(&q, (answer){word.word, 0}, (answer){word.word, 0});
}

/* arrays from server 0 that come to a server or a switch again: alone, and as the second of a list; at the eighth hop
 * too, where the destination would be reached by it, and where it would not. And servers to write */
static void worked_again(void) {
    static const struct {
        uint32_t destination, why, hop, earlier;
        uint8_t array[ARRAY];
    } rows[] = {{3, 29, 2, 1, {1, 3}},
                {3, 28, 2, 0, {1, 0}},
                {3, 28, 4, 0, {1, 0x41, 0, 0x40}},
                {15, 28, 5, 1, {1, 0x41, 2, 0x40, 1}},
                {15, 29, 5, 1, {1, 0x41, 2, 0x40, 3}},
                {9, 29, 8, 2, {1, 0x41, 2, 0x42, 3, 0x43, 1, 0x42}},
                {4, 29, 8, 2, {1, 0x41, 2, 0x42, 3, 0x43, 1, 0x42}},
                {4, 28, 8, 0, {1, 0x41, 2, 0x42, 3, 0x43, 0, 0x40}}};
    static const uint64_t switch_again[] = {0, 1, 3}, source_again[] = {0, 1, 5, 4, 0, 3}, far[] = {0, 1, 3, 4};
    enter_full(4, 1);
    for (size_t i = 0; i < sizeof rows / sizeof *rows; i++) {
        uint32_t to = rows[i].destination, why = rows[i].why, hop = rows[i].hop, earlier = rows[i].earlier;
        uint8_t list[BCUBE_LIST_BYTES];
        plain_build(room, 0, to, list);
        memcpy(list + ARRAY, rows[i].array, ARRAY);
        worked_place(with(about(READ, 0, to, 0, 0), rows[i].array, ARRAY), why, 1, hop, 0, earlier);
        worked_place(with(about(REVERSE, 0, to, 0, 0), rows[i].array, ARRAY), why, 1, hop, 0, earlier);
        struct question check = with(about(CHECK, 0, to, 0, 0), failed, servers);
        worked_place(with(check, rows[i].array, ARRAY), why, 1, hop, 0, earlier);
        worked_place(with(check, list, 2 * ARRAY), why, 2, hop, 0, earlier);
    }
    worked_place(with(about(WRITE, 0, 0, 0, 0), switch_again, 3), 29, 1, 2, 0, 1);
    worked_place(with(about(WRITE, 0, 0, 0, 0), source_again, 6), 28, 1, 4, 0, 0);
    worked_place(with(about(WRITE, 0, 0, 0, 0), source_again, 5), 5, 0, 0, 0, 0); /* the first is the last */
    worked_place(with(about(WRITE, 0, 0, 0, 0), far, 4), 29, 1, 2, 0, 1);         /* before the 23 of the next hop */
    failed[0] = 2; /* server 0's link at level 1, by which 01 41 00 40 would come back; */
    failed[3] = 1; /* and server 3's at level 0, to which 01 03 would lead */
    worked_place(with(with(about(CHECK, 0, 7, 0, 0), failed, servers), rows[2].array, ARRAY), 11, 1, 4, 0, 0);
    worked_place(with(with(about(CHECK, 0, 7, 0, 0), failed, servers), rows[0].array, ARRAY), 11, 1, 2, 0, 0);
}

/* lists from server 0 of which two routes meet: the later one and its hop, the first one and its hop */
static void worked_meetings(void) {
    static const struct {
        uint32_t n, k, destination, count, route, hop, first, first_hop;
        uint8_t list[4][ARRAY];
    } rows[] = {
        {4, 1, 3, 2, 2, 1, 1, 1, {{3}, {3}}},
        {4, 1, 7, 2, 2, 3, 1, 2, {{0x41, 3}, {2, 0x41, 3}}},
        /* the first and the third both come through server 3, by four different switches */
        {2, 3, 15, 3, 3, 2, 1, 2, {{1, 0x41, 0x81, 0xc1}, {0xc1, 0x81, 0x41, 1}, {0x41, 1, 0xc1, 0x81}}},
        /* both reach server 7, and then go on by one switch */
        {2, 3, 15, 2, 2, 3, 1, 3, {{1, 0x41, 0x81, 0xc1}, {0x41, 0x81, 1, 0xc1}}},
        /* server 4 by hops 1 and 3, server 6 by hops 2 and 2, a switch by hops 2 and 3; and the other way round */
        {2, 2, 7, 2, 2, 3, 1, 1, {{0x81, 0x41, 1}, {0x41, 0x81, 0x40, 1, 0x41}}},
        {2, 2, 7, 2, 2, 2, 1, 2, {{0x41, 0x81, 0x40, 1, 0x41}, {0x81, 0x41, 1}}},
        /* pairs 1 and 4, 2 and 3 meet: by the first route */
        {2, 3, 15, 4, 4, 1, 1, 1, {{1, 0x41, 0x81, 0xc1}, {0xc1, 0x81, 0x41, 1}, {0xc1, 0x81, 0x41, 1}, {1, 0x41, 0x81, 0xc1}}},
        /* an array that is refused comes before two that meet */
        {2, 3, 15, 3, 3, 2, 0, 0, {{1, 0x41, 0x81, 0xc1}, {1, 0x41, 0x81, 0xc1}, {1, 0}}}};
    for (size_t i = 0; i < sizeof rows / sizeof *rows; i++) {
        enter_full(rows[i].n, rows[i].k);
        struct question q = with(about(CHECK, 0, rows[i].destination, 0, 0), failed, servers);
        q = with(q, rows[i].list, ARRAY * rows[i].count);
        worked_place(q, rows[i].first ? 15 : 28, rows[i].route, rows[i].hop, rows[i].first, rows[i].first_hop);
    }
}

/* the steps of a packet: here, the index, and what has to be answered */
struct worked_step {
    uint32_t here, index, delivered, next, mac, port, level, old;
};

static void worked_packet(uint32_t destination, const uint8_t path[ARRAY], const struct worked_step *rows, size_t count) {
    for (size_t i = 0; i < count; i++) {
        const struct worked_step *row = &rows[i];
        struct question q = with(about(STEP, row->here, destination, row->index, 0), path, ARRAY);
        q = with(q, neighbours, BCUBE_NEIGHBOUR_TABLE_BYTES);
        uint32_t back = 64 * row->level + row->old, index = row->delivered ? 0 : row->index + 1;
        answer wanted = {(uint64_t)row->delivered << 16 | (uint64_t)index << 24 | (uint64_t)row->next << 32 |
                             (uint64_t)row->port << 48 | (uint64_t)back << 56, row->mac};
        answer given = ask(&q);
        if (given.word != wanted.word || given.mac != wanted.mac || bcube_step_level(given) != row->level ||
            bcube_step_old(given) != row->old || bcube_step_back(given) != back)
            not_as_worked(&q, given, wanted);
    }
}

/* packets whose steps say what each hop left behind, and the same backwards as the reversed path. Every neighbour is
 * available; its MAC ends with the path byte, and its OutPort is the level */
static void worked_steps(void) {
    static const uint8_t figure4[ARRAY] = {0xc1, 0x41}, detour[ARRAY] = {0xc0, 0x41, 0xc3};
    static const uint8_t figure4_back[ARRAY] = {0x40, 0xc0}, detour_back[ARRAY] = {0xc0, 0x40, 0xc3};
    static const struct worked_step by_figure4[] = {{1, 0, 0, 513, 193, 3, 3, 0}, {513, 1, 0, 521, 65, 1, 1, 0},
                                                    {521, 2, 1, 0, 0, 0, 0, 0}};
    static const struct worked_step by_detour[] = {{1537, 0, 0, 1, 192, 3, 3, 3}, {1, 1, 0, 9, 65, 1, 1, 0},
                                                   {9, 2, 0, 1545, 195, 3, 3, 0}, {1545, 3, 1, 0, 0, 0, 0, 0}};
    memset(neighbours, 0, sizeof neighbours);
    for (uint32_t byte = 0; byte < 256; byte++) {
        uint8_t *entry = neighbours + BCUBE_NEIGHBOUR_ENTRY_BYTES * byte;
        entry[5] = (uint8_t)byte;
        entry[BCUBE_NEIGHBOUR_PORT] = (uint8_t)(byte / 64);
        entry[BCUBE_NEIGHBOUR_FLAG] = BCUBE_NEIGHBOUR_AVAILABLE;
    }
    enter_full(8, 3);
    worked_packet(521, figure4, by_figure4, 3);
    worked(with(about(REVERSE, 1, 521, 0, 0), figure4, ARRAY), 0, figure4_back, ARRAY);
    enter(8, 3, 4);
    worked_packet(1545, detour, by_detour, 4);
    worked(with(about(REVERSE, 1537, 1545, 0, 0), detour, ARRAY), 0, detour_back, ARRAY);
    fill_neighbours();
}

static void picked(bcube_answer given, uint32_t list, uint32_t route, size_t offset) {
    struct question q = about(PICK, 0, 3, 0, 0);
    if (bcube_pick_list(given) == list && bcube_pick_route(given) == route && bcube_pick_offset(given) == offset) return;
    not_as_worked(&q, (answer){given.word, 0}, (answer){valued(256 * list + route), 0});
}

/* picking, read by its accessors: the second of the kept list, the first of the fresh list, and none */
static void worked_picking(void) {
    static const uint8_t unusable[8] = {3, 1}, lists[16] = {0x80, 0, 0, 0, 0, 0, 0, 0, 3};
    enter_full(4, 1);
    picked(ask_pick(0, 3, unusable, 8, lists, 16), BCUBE_KEPT, 2, 8);
    picked(ask_pick(0, 3, lists + 8, 8, lists, 0), BCUBE_FRESH, 1, 0);
    picked(ask_pick(0, 3, unusable, 8, lists, 8), 0, 0, 0);
}

/* a whole tree, and the parent of each server in it */
static void worked_tree(uint32_t source, uint32_t tree, const uint32_t *parents) {
    uint32_t whole[BCUBE_TREE_NUMBERS] = {0};
    memcpy(whole, parents, servers * sizeof *parents);
    worked(about(TREE, source, tree, 0, 0), valued(servers), whole, sizeof whole);
    for (uint32_t x = 0; x < servers; x++)
        worked(about(PARENT, source, tree, x, 0), x == source ? refused(5, 0, 0) : valued(parents[x]), "", 0);
}

/* from 0 in (4,1) tree 0 goes 0, 1, 2, 3, then up from each of these, and last from 7, 11 and 15 to 4, 8 and 12 */
static void worked_whole_trees(void) {
    static const uint32_t none = BCUBE_NO_PARENT;
    enter_full(4, 1);
    worked_tree(0, 0, (const uint32_t[]){none, 0, 1, 2, 7, 1, 2, 3, 11, 5, 6, 7, 15, 9, 10, 11});
    worked_tree(0, 1, (const uint32_t[]){none, 13, 14, 15, 0, 4, 5, 6, 4, 8, 9, 10, 8, 12, 13, 14});
    enter(4, 1, 2);
    worked_tree(5, 0, (const uint32_t[]){4, 0, 6, 7, 7, none, 5, 6});
    worked_tree(5, 1, (const uint32_t[]){3, 5, 1, 2, 0, none, 2, 3});
    enter_full(2, 1);
    worked_tree(0, 0, (const uint32_t[]){none, 0, 3, 1});
    worked_tree(0, 1, (const uint32_t[]){none, 3, 0, 2});
    enter_full(2, 0);
    worked_tree(1, 0, (const uint32_t[]){1, none});
    enter(64, 0, 3);
    worked_tree(2, 0, (const uint32_t[]){2, 0, none});
}

/* parents in rooms of four levels, and the order of 4, 20 and 5, after 1, 2, 26 and 3 */
static void worked_parents(void) {
    static const struct {
        uint32_t n, k, m, why;
        uint64_t source, tree, server;
        uint32_t parent;
    } rows[] = {
        {2, 3, 2, 0, 0, 0, 10, 11},   {2, 3, 2, 0, 0, 1, 10, 2},   {2, 3, 2, 0, 0, 2, 10, 14},   {2, 3, 2, 0, 0, 3, 10, 8},
        {8, 3, 4, 0, 1, 0, 521, 520}, {8, 3, 4, 0, 1, 1, 521, 9},  {8, 3, 4, 0, 1, 2, 521, 969}, {8, 3, 4, 0, 1, 3, 521, 513},
        {8, 3, 4, 0, 0, 3, 1, 1537},  {4, 1, 4, 4, 16, 2, 16, 0},  {4, 1, 4, 4, 3, 2, 16, 0},    {4, 1, 4, 4, 16, 1, 3, 0},
        {4, 1, 4, 20, 3, 2, 3, 0},    {4, 1, 4, 20, 3, 2, 4, 0},   {4, 1, 4, 5, 3, 1, 3, 0},     {4, 1, 1, 26, 3, 1, 3, 0},
        {4, 1, 1, 26, 16, 2, 16, 0},  {9, 3, 9, 3, 9999, 4, 9999, 0},
        {8, 4, 9, 2, 9999, 5, 9999, 0}, {65, 4, 9, 1, 9999, 5, 9999, 0}, {4, 1, 4, 20, 3, UINT64_C(1) << 32, 4, 0},
        {4, 1, 4, 4, (UINT64_C(1) << 32) + 3, 1, 4, 0}, {4, 1, 4, 4, 3, 1, (UINT64_C(1) << 32) + 4, 0}};
    for (size_t i = 0; i < sizeof rows / sizeof *rows; i++) {
        room = plain_filled_room(rows[i].n, rows[i].k, rows[i].m);
        uint64_t word = rows[i].why ? refused(rows[i].why, 0, 0) : valued(rows[i].parent);
        worked(about(PARENT, rows[i].source, rows[i].tree, rows[i].server, 0), word, "", 0);
    }
}

/* ---- small rooms: every server, level and value */

/* a number after those that are right: the first wrong ones, then the far ones */
enum { BEYOND = 8 };

static uint64_t beyond(uint32_t number, uint32_t right) {
    static const uint64_t far[] = {0x10000, 0x80000000, 0xffffffff, 0x100000000, 0x100000001, 0xffffffffffffffff};
    return number < right + 2 ? number : far[(number - right - 2) % 6];
}

static void every_value(uint64_t server, uint64_t level) {
    ask_numbers(DIGIT, server, level, 0, 0);
    ask_numbers(SWITCH, server, level, 0, 0);
    ask_numbers(NEIGHBOUR, server, level, 0xffffffff, 0);
    if (server < servers && level <= k)
        for (uint32_t v = 0; v < n + BEYOND; v++) ask_numbers(NEIGHBOUR, server, level, beyond(v, n), 0);
}

/* every switch and port of every level, and every path byte of a level and a value and back */
static void every_port(void) {
    for (uint32_t i = 0; i < k + 1 + BEYOND; i++) {
        uint64_t level = beyond(i, k + 1);
        uint32_t switches = bcube_value(ask_numbers(SWITCHES, level, 0, 0, 0));
        for (uint32_t v = 0; v < n + BEYOND; v++) {
            bcube_answer byte = ask_numbers(PATH_BYTE, level, beyond(v, n), 0, 0);
            if (!bcube_refusal(byte)) ask_numbers(PATH_BYTE_PARTS, bcube_value(byte), 0, 0, 0);
            for (uint32_t w = 0; w < switches + BEYOND; w++)
                ask_numbers(SERVER_AT, level, beyond(w, switches), beyond(v, n), 0);
        }
    }
    for (uint32_t byte = 0; byte < 256 + BEYOND; byte++) ask_numbers(PATH_BYTE_PARTS, beyond(byte, 256), 0, 0, 0);
}

static void every_server(void) {
    for (uint32_t i = 0; i < servers + BEYOND; i++) {
        uint64_t a = beyond(i, servers);
        ask_numbers(DIGITS, a, 0, 0, 0);
        for (uint32_t level = 0; level < k + 1 + BEYOND; level++) every_value(a, beyond(level, k + 1));
        for (uint32_t b = 0; b < servers + BEYOND; b++) ask_numbers(BETWEEN, a, beyond(b, servers), 0, 0);
    }
}

static void every_digit(void) {
    uint32_t most[4];
    for (uint32_t level = 0; level < 4; level++) most[level] = level <= k ? n + 2 : 3;
    for (uint32_t a = 0; a < most[0]; a++)
        for (uint32_t b = 0; b < most[1]; b++)
            for (uint32_t c = 0; c < most[2]; c++)
                for (uint32_t d = 0; d < most[3]; d++)
                    ask_numbers(ADDRESS, a == n + 1 ? UINT64_MAX : a, b, c == n + 1 ? UINT64_C(1) << 32 : c, d);
    for (uint32_t level = 0; level < k + 1 + BEYOND; level++) ask_numbers(BOUND, beyond(level, k + 1), 0, 0, 0);
}

/* every link asked, marked, marked again, cleared: the table and the summary are taken on from each */
static void every_link(void) {
    static const enum call turn[] = {FAILED_LINK, MARK,     FAILED_LINK, MARK,  CLEAR,    CLEAR,
                                     MARK_ALL,    FAILED_LINK, CLEAR,    MARK_ALL, CLEAR_ALL};
    fail_links(4);
    summarize();
    for (uint32_t i = 0; i < servers + BEYOND; i++)
        for (uint32_t j = 0; j < k + 1 + BEYOND; j++)
            for (size_t t = 0; t < sizeof turn / sizeof *turn; t++) {
                uint64_t server = beyond(i, servers), level = beyond(j, k + 1);
                if (turn[t] == FAILED_LINK) ask_table(FAILED_LINK, server, level);
                else if (!bcube_refusal(carry(turn[t], server, level))) hold_to_count();
                if (any(8) == 0) fail_links(4), summarize();
            }
}

/* ---- arrays of path bytes, right and wrong */

static uint8_t any_hop(uint32_t here) {
    uint32_t level = any(k + 1);
    return (uint8_t)(64 * level + (digit_of(here, level) + 1 + any(bound(level) - 1)) % bound(level));
}

/* some hops anywhere, then the digits corrected in any order, as far as eight bytes go */
static void wander(uint32_t source, uint32_t destination, uint8_t array[ARRAY]) {
    uint32_t here = source, at = 0, first = any(4), hops = any(6);
    memset(array, 0, ARRAY);
    while (at < hops) {
        array[at] = any_hop(here);
        here = after(here, array[at++]);
    }
    for (uint32_t i = 0; i < 4 && at < ARRAY; i++) {
        uint32_t level = (first + i) % 4;
        if (level > k || digit_of(here, level) == digit_of(destination, level)) continue;
        array[at] = (uint8_t)(64 * level + digit_of(destination, level));
        here = after(here, array[at++]);
    }
}

/* eight hops that meet no server and use no switch twice, as well as that can be done, and do not arrive */
static void roam(uint32_t source, uint32_t destination, uint8_t array[ARRAY]) {
    uint32_t here = source;
    for (uint32_t at = 0; at < ARRAY; at++)
        for (int tries = 0; tries < 8; tries++) {
            uint64_t met[9];
            array[at] = any_hop(here);
            memset(array + at + 1, 0, ARRAY - 1 - at);
            uint32_t next = after(here, array[at]);
            if (next == destination || next == source) continue;
            if (bcube_refusal(plain_read(room, source, next, array, ARRAY, met)) != 0) continue;
            here = next;
            break;
        }
}

/* the digits of here that differ from there, corrected in any order; gives the bytes that the array has then */
static uint32_t go_on(uint32_t here, uint32_t there, uint8_t array[ARRAY], uint32_t at) {
    while (here != there && at < ARRAY) {
        uint32_t level = any(k + 1);
        if (digit_of(here, level) == digit_of(there, level)) continue;
        array[at] = (uint8_t)(64 * level + digit_of(there, level));
        here = after(here, array[at++]);
    }
    return at;
}

/* some hops, then out, and back to the server that these led to, or past it; gives how many, after which comes one more */
static uint32_t come_round(uint32_t source, uint8_t array[ARRAY]) {
    uint32_t here = source, there, at = 0, hops = any(5);
    memset(array, 0, ARRAY);
    while (at < hops) {
        array[at] = any_hop(here);
        here = after(here, array[at++]);
    }
    there = here;
    for (uint32_t i = 1 + any(3); i > 0; i--) there = after(there, any_hop(there));
    at = go_on(there, here, array, go_on(here, there, array, at));
    if (at > 0 && any(3) == 0) array[at - 1] = (uint8_t)(array[at - 1] / 64 * 64 + any(bound(array[at - 1] / 64)));
    if (at < ARRAY) array[at] = any_hop(here);
    return at;
}

static void make_array(uint32_t source, uint32_t destination, uint8_t array[ARRAY]) {
    uint8_t routes[BCUBE_LIST_BYTES] = {0};
    uint32_t kind = any(9);
    if (kind < 3) {
        plain_build(room, source, destination, routes);
        memcpy(array, routes + ARRAY * any(k + 1), ARRAY);
    } else if (kind < 6) {
        wander(source, destination, array);
    } else if (kind < 7) {
        roam(source, destination, array);
    } else if (kind < 8) {
        come_round(source, array);
    } else {
        for (int i = 0; i < ARRAY; i++) array[i] = (uint8_t)(any(2) ? any(256) : 64 * any(k + 1) + any(n));
    }
    if (any(6) == 0) array[any(ARRAY)] = (uint8_t)(any(2) ? any(256) : 64 * any(k + 1) + any(n));
}

/* the arrays of a list: all by way of one server, which they may share without sharing a switch; */
static void by_way_of_one(uint32_t source, uint32_t destination, uint8_t *list, uint32_t count) {
    uint32_t middle = any(servers);
    for (uint32_t i = 0; i < count; i++)
        go_on(middle, destination, list + ARRAY * i, go_on(source, middle, list + ARRAY * i, 0));
}

/* these routes, in any order and more than once; */
static void with_repeats(const uint8_t *routes, uint8_t *list, uint32_t count) {
    for (uint32_t i = 0; i < count; i++) memcpy(list + ARRAY * i, routes + ARRAY * any(k + 1), ARRAY);
}

/* these routes, one or two of which go instead by way of a server of another, or beside it; */
static void by_way_of_another(uint32_t source, uint32_t destination, const uint8_t *routes, uint8_t *list, uint32_t count) {
    for (uint32_t i = 0, first = any(k + 1); i < count; i++)
        memcpy(list + ARRAY * i, routes + ARRAY * ((first + i) % (k + 1)), ARRAY);
    for (uint32_t times = 1 + any(2); times > 0; times--) {
        uint64_t on[9];
        uint8_t *array = list + ARRAY * any(count);
        uint32_t read = bcube_value(plain_read(room, source, destination, list + ARRAY * any(count), ARRAY, on));
        if (read == 0) continue;
        uint32_t middle = (uint32_t)on[any(read)];
        if (any(2)) middle = after(middle, any_hop(middle));
        memset(array, 0, ARRAY);
        go_on(middle, destination, array, go_on(source, middle, array, 0));
    }
}

/* or these routes in order, with others among them */
static void with_others(uint32_t source, uint32_t destination, const uint8_t *routes, uint8_t *list, uint32_t count) {
    for (uint32_t i = 0; i < count; i++)
        if (any(4))
            memcpy(list + ARRAY * i, routes + ARRAY * (i % (k + 1)), ARRAY);
        else
            make_array(source, destination, list + ARRAY * i);
}

/* a list, right or wrong, some of whose arrays may be of these routes; gives its bytes */
static size_t make_list(uint32_t source, uint32_t destination, const uint8_t routes[BCUBE_LIST_BYTES], uint8_t list[64]) {
    uint32_t count = any(8) == 0 ? any(k + 4) : 1 + any(k + 1), kind = any(8);
    memset(list, 0, 64);
    if (kind == 0)
        by_way_of_one(source, destination, list, count);
    else if (kind == 1)
        with_repeats(routes, list, count);
    else if (kind == 2 && count > 0)
        by_way_of_another(source, destination, routes, list, count);
    else
        with_others(source, destination, routes, list, count);
    return ARRAY * count;
}

/* ---- small rooms: every pair */

/* each route of a list read, reversed, and back again */
static void read_list(uint32_t source, uint32_t destination, const uint8_t *list, uint32_t count) {
    for (uint32_t i = 0; i < count; i++) {
        bcube_answer read = ask_path(READ, source, destination, list + ARRAY * i);
        if (bcube_refusal(read) == 0) {
            uint64_t met[9];
            memcpy(met, left(), sizeof met);
            ask_write(met, bcube_value(read));
        }
        if (bcube_refusal(ask_path(REVERSE, source, destination, list + ARRAY * i)) == 0) {
            uint8_t back[ARRAY];
            memcpy(back, left(), ARRAY);
            ask_path(REVERSE, destination, source, back);
        }
    }
}

/* what depends on the failed-link table */
static void one_pair(uint32_t source, uint32_t destination) {
    uint8_t built[BCUBE_LIST_BYTES] = {0}, selected[BCUBE_LIST_BYTES] = {0}, list[64];
    plain_build(room, source, destination, built);
    ask_table(FIND, source, destination);
    uint32_t count = bcube_value(ask_table(SELECT, source, destination));
    if (count) memcpy(selected, left(), sizeof selected);
    ask_check(source, destination, selected, ARRAY * count);
    ask_pick(source, destination, built, ARRAY * any(k + 2), selected, ARRAY * count);
    if (k == 0 || source == destination) return;
    ask_check(source, destination, built, ARRAY * (k + 1));
    ask_check(source, destination, list, make_list(source, destination, any(2) ? built : selected, list));
    read_list(source, destination, selected, count);
}

static void every_pair(int also_built) {
    for (uint32_t a = 0; a < servers; a++)
        for (uint32_t d = 0; d < servers; d++) {
            if (also_built) {
                uint8_t built[BCUBE_LIST_BYTES] = {0};
                uint32_t count = bcube_value(ask_numbers(BUILD, a, d, 0, 0));
                memcpy(built, left(), sizeof built);
                read_list(a, d, built, count);
            }
            one_pair(a, d);
        }
}

static void pairs_under_tables(void) {
    static const uint32_t one_in[] = {4, 12, 2};
    fail_links(0);
    every_pair(1);
    for (int i = 0; i < (k == 0 ? 1 : 3); i++) {
        fail_links(one_in[i]);
        every_pair(0);
    }
    if (k == 0) return;
    fail_links(0);
    kill_server(any(servers));
    every_pair(0);
}

/* ---- every path byte as the first hop, then a way on to the destination */

static void every_byte(uint32_t source, uint32_t destination) {
    for (uint32_t byte = 0; byte < 256; byte++) {
        uint8_t path[ARRAY] = {(uint8_t)byte}, routes[BCUBE_LIST_BYTES];
        uint32_t next = after(source, path[0]);
        if (!bcube_refusal(plain_build(room, next, destination, routes)))
            memcpy(path + 1, routes + ARRAY * any(k + 1), ARRAY - 1);
        ask_path(READ, source, destination, path);
        ask_check(source, destination, path, ARRAY);
        ask_step(source, destination, 0, path);
    }
}

static void every_hop(void) {
    fail_links(4);
    fill_neighbours();
    for (uint32_t a = 0; a < servers; a++) every_byte(a, another(a));
}

/* ---- one hop by itself, and back again */

/* an answered hop goes at the level of its byte; by the byte of its way back a hop leads back, and has the first byte
 * as its own way back */
static void one_hop(uint64_t server, uint64_t byte) {
    struct question q = about(HOP_OF, server, byte, 0, 0);
    bcube_answer hop = ask_word(&q);
    if (bcube_refusal(hop)) return;
    uint32_t level = (uint32_t)byte / 64, back = bcube_hop_back(hop);
    if (bcube_hop_level(hop) != level || bcube_hop_old(hop) != digit_of((uint32_t)server, level) ||
        back != 64 * bcube_hop_level(hop) + bcube_hop_old(hop))
        not_as_worked(&q, (answer){hop.word, 0}, (answer){hop.word, 0});
    worked(about(HOP_OF, bcube_hop_next(hop), back, 0, 0), valued((uint32_t)(byte << 16 | server)), "", 0);
}

/* by every path byte, and by numbers that are none; */
static void every_hop_from(uint64_t server) {
    for (uint32_t byte = 0; byte < 256 + BEYOND; byte++) one_hop(server, beyond(byte, 256));
}

/* from every server, and from numbers that are none */
static void every_hop_by_itself(void) {
    for (uint32_t i = 0; i < servers + BEYOND; i++) every_hop_from(beyond(i, servers));
}

/* ---- walks that come to a server or a switch again */

/* rooms in which every way to go on is taken, or only so many at each hop, as there would be too many */
static const uint32_t tight[][4] = {{2, 1, 2, 99}, {3, 1, 2, 99}, {3, 1, 3, 99}, {4, 1, 2, 99}, {4, 1, 3, 99},
                                    {4, 1, 4, 99}, {2, 2, 2, 99}, {3, 2, 2, 3},  {3, 2, 3, 2},  {2, 3, 2, 99},
                                    {3, 3, 2, 2},  {3, 3, 3, 2},  {4, 3, 2, 2}};
enum { TIGHT = sizeof tight / sizeof *tight };

/* the first hops of an array, as a route and as servers to write, these alone and with one more; gives the reading */
static bcube_answer ask_walk(uint32_t source, uint32_t destination, const uint8_t array[ARRAY], uint32_t hops) {
    uint64_t on[10] = {source};
    for (uint32_t i = 0; i < hops; i++) on[i + 1] = after((uint32_t)on[i], array[i]);
    on[hops + 1] = after((uint32_t)on[hops], any_hop((uint32_t)on[hops]));
    ask_write(on, hops + 1);
    if (hops < ARRAY) ask_write(on, hops + 2);
    ask_path(REVERSE, source, destination, array);
    ask_check(source, destination, array, ARRAY);
    return ask_path(READ, source, destination, array);
}

/* every hop that goes on from here, after so many, and from each that is not refused on again, or from so many */
static void every_walk(uint32_t source, uint32_t destination, uint8_t array[ARRAY], uint32_t hops, uint32_t so_many) {
    uint32_t here = source, ways = 0;
    for (uint32_t i = 0; i < hops; i++) here = after(here, array[i]);
    for (uint32_t level = 0; level <= k; level++) ways += bound(level) - 1;
    for (uint32_t byte = 0; byte < 64 * (k + 1); byte++) {
        if (byte % 64 >= bound(byte / 64) || digit_of(here, byte / 64) == byte % 64) continue;
        array[hops] = (uint8_t)byte;
        memset(array + hops + 1, 0, ARRAY - 1 - hops);
        bcube_answer read = ask_walk(source, destination, array, hops + 1);
        if (bcube_refusal(read) == 0 || bcube_hop(read) <= hops + 1 || hops + 1 == ARRAY) continue;
        if (so_many >= ways || any(ways) < so_many) every_walk(source, destination, array, hops + 1, so_many);
    }
}

static void every_walk_of_tight_rooms(void) {
    uint8_t array[ARRAY];
    for (uint32_t i = 0; i < TIGHT; i++)
        for (uint32_t times = 0; times < 2; times++) {
            enter(tight[i][0], tight[i][1], tight[i][2]);
            uint32_t source = any(servers);
            every_walk(source, another(source), array, 0, tight[i][3]);
        }
}

/* ---- routes that meet */

enum { ROUTES = 256 };

static uint8_t gathered[ROUTES][ARRAY];
static uint32_t found;

/* every route of a pair that begins with these hops; of more than there is room for, any */
static void gather(uint32_t source, uint32_t destination, uint8_t array[ARRAY], uint32_t hops) {
    uint32_t here = source;
    for (uint32_t i = 0; i < hops; i++) here = after(here, array[i]);
    for (uint32_t byte = 0; byte < 64 * (k + 1); byte++) {
        uint64_t on[9];
        if (byte % 64 >= bound(byte / 64) || digit_of(here, byte / 64) == byte % 64) continue;
        array[hops] = (uint8_t)byte;
        memset(array + hops + 1, 0, ARRAY - 1 - hops);
        bcube_answer read = plain_read(room, source, destination, array, ARRAY, on);
        if (bcube_refusal(read) == 0) {
            uint32_t place = found < ROUTES ? found : any(found + 1);
            if (place < ROUTES) memcpy(gathered[place], array, ARRAY);
            found++;
        } else if (bcube_hop(read) > hops + 1 && hops + 1 < ARRAY) {
            gather(source, destination, array, hops + 1);
        }
    }
}

/* a list of these gathered routes */
static void ask_gathered(uint32_t source, uint32_t destination, const uint32_t *places, uint32_t count) {
    uint8_t list[BCUBE_LIST_BYTES];
    for (uint32_t i = 0; i < count; i++) memcpy(list + ARRAY * i, gathered[places[i]], ARRAY);
    ask_check(source, destination, list, ARRAY * count);
}

/* every two of the gathered routes as a list, or as many as there is time for; then lists of more */
static void every_two_routes(uint32_t source, uint32_t destination) {
    uint8_t array[ARRAY];
    found = 0;
    gather(source, destination, array, 0);
    uint32_t all = found < ROUTES ? found : ROUTES, one_in = 1 + all * all / 10000;
    for (uint32_t one = 0; one < all; one++)
        for (uint32_t other = 0; other < all; other++)
            if (any(one_in) == 0) ask_gathered(source, destination, (const uint32_t[]){one, other}, 2);
    for (uint32_t i = 0; i < 1000 && k > 1; i++) {
        uint32_t these[4];
        for (int j = 0; j < 4; j++) these[j] = any(all);
        ask_gathered(source, destination, these, 3 + any(k - 1));
    }
}

static void every_two_routes_of_tight_rooms(void) {
    for (uint32_t i = 0; i < TIGHT; i++) {
        enter(tight[i][0], tight[i][1], tight[i][2]);
        uint32_t source = any(servers);
        if (servers > 16)
            every_two_routes(source, another(source));
        else
            for (uint32_t d = 0; d < servers; d++)
                if (d != source) every_two_routes(source, d);
    }
}

/* the digits of a room of four levels corrected in the order of this number, 0 to 23 */
static void in_order(uint32_t number, uint32_t destination, uint8_t array[ARRAY]) {
    uint32_t level[] = {0, 1, 2, 3};
    memset(array, 0, ARRAY);
    for (uint32_t i = 0; i < 4; i++) {
        uint32_t from = i + number % (4 - i), chosen_level = level[from];
        number /= 4 - i;
        level[from] = level[i];
        level[i] = chosen_level;
        array[i] = (uint8_t)(64 * chosen_level + digit_of(destination, chosen_level));
    }
}

/* between two servers of which all four digits differ: every two orders as a list, and lists of more */
static void every_two_orders(void) {
    uint32_t source = any(servers), destination = source;
    for (uint32_t level = 0; level <= 3; level++) {
        uint32_t value = (digit_of(source, level) + 1 + any(bound(level) - 1)) % bound(level);
        destination = after(destination, (uint8_t)(64 * level + value));
    }
    for (uint32_t i = 0; i < 24 * 24 + 400; i++) {
        uint8_t list[BCUBE_LIST_BYTES];
        uint32_t count = i < 24 * 24 ? 2 : 3 + any(2);
        in_order(i < 24 * 24 ? i % 24 : any(24), destination, list);
        in_order(i < 24 * 24 ? i / 24 : any(24), destination, list + ARRAY);
        in_order(any(24), destination, list + 2 * ARRAY);
        in_order(any(24), destination, list + 3 * ARRAY);
        ask_check(source, destination, list, ARRAY * count);
    }
}

static void every_two_orders_of_four_levels(void) {
    for (uint32_t times = 0; times < 3; times++) {
        for (uint32_t i = 0; i < CHOSEN; i++)
            if (chosen[i][1] == 3) enter_chosen(i), every_two_orders();
        for (uint32_t i = 0; i < TIGHT; i++)
            if (tight[i][1] == 3) enter(tight[i][0], 3, tight[i][2]), every_two_orders();
    }
}

/* ---- half-filled rooms: the vacant ports of level k, m to n - 1, where a full room has servers */

/* an array whose byte at this hop names a vacant port; all links are live */
static void vacant_hop(uint32_t source, uint32_t destination, const uint8_t array[ARRAY], uint32_t hop) {
    uint8_t routes[BCUBE_LIST_BYTES], list[2 * ARRAY];
    uint32_t here = hop == 1 ? source : after(source, array[0]);
    worked(with(about(READ, source, destination, 0, 0), array, ARRAY), refused(9, 1, hop), "", 0);
    worked(with(about(REVERSE, source, destination, 0, 0), array, ARRAY), refused(9, 1, hop), "", 0);
    struct question check = with(about(CHECK, source, destination, 0, 0), failed, servers);
    worked(with(check, array, ARRAY), refused(9, 1, hop), "", 0);
    struct question step = with(about(STEP, here, destination, hop - 1, 0), array, ARRAY);
    worked(with(step, neighbours, BCUBE_NEIGHBOUR_TABLE_BYTES), 9 | hop << 8, "", 0);
    if (k == 0) return;
    plain_build(room, source, destination, routes);
    memcpy(list, routes, ARRAY);
    memcpy(list + ARRAY, array, ARRAY);
    worked(with(check, list, 2 * ARRAY), refused(9, 2, hop), "", 0);
}

/* a vacant port is 21 as a digit, a value and a port, and 9 in a path byte, at the first hop and at a later one */
static void vacant_port(uint32_t port) {
    uint32_t source = any(servers), met, destination;
    uint8_t byte = (uint8_t)(64 * k + port), first[ARRAY] = {byte}, second[ARRAY] = {any_hop(source), byte};
    uint64_t digits[4] = {0};
    digits[k] = port;
    neighbours[BCUBE_NEIGHBOUR_ENTRY_BYTES * byte + BCUBE_NEIGHBOUR_FLAG] = BCUBE_NEIGHBOUR_AVAILABLE;
    worked(about(ADDRESS, digits[0], digits[1], digits[2], digits[3]), refused(21, 0, 0), "", 0);
    worked(about(NEIGHBOUR, source, k, port, 0), refused(21, 0, 0), "", 0);
    worked(about(SERVER_AT, k, any(servers / m), port, 0), refused(21, 0, 0), "", 0);
    worked(about(PATH_BYTE, k, port, 0, 0), refused(21, 0, 0), "", 0);
    worked(about(PATH_BYTE_PARTS, byte, 0, 0, 0), refused(9, 1, 1), "", 0);
    worked(about(HOP_OF, source, byte, 0, 0), refused(9, 1, 1), "", 0);
    vacant_hop(source, another(source), first, 1);
    if (servers == 2) return;
    met = after(source, second[0]);
    do destination = another(source);
    while (destination == met);
    vacant_hop(source, destination, second, 2);
}

static void every_vacant_port(void) {
    for (uint32_t port = m; port < n; port++) vacant_port(port);
}

/* ---- summaries: every table, every wrong summary, every dead switch, and changes in a row */

/* the question and the count afresh, with the table and the summary as they are; */
static void whole_summary(void) {
    ask_summary(DEAD_SWITCH, 0, 0);
    ask_summary(SUMMARIZE, 0, 0);
}

/* and each change too */
static void every_change(void) {
    for (uint32_t server = 0; server < servers; server++) {
        for (uint32_t level = 0; level <= k; level++) {
            ask_summary(MARK, server, level);
            ask_summary(CLEAR, server, level);
        }
        ask_summary(MARK_ALL, server, 0);
        ask_summary(CLEAR_ALL, server, 0);
    }
    whole_summary();
}

/* every table of a room of few links, with its summary */
static void every_table(void (*what)(void)) {
    for (uint32_t bits = 0; bits < 1u << servers * (k + 1); bits++) {
        for (uint32_t a = 0; a < servers; a++) failed[a] = (uint8_t)(bits >> a * (k + 1) & (power(2, k + 1) - 1));
        summarize();
        what();
    }
}

/* every summary with entries below `most` beside any tables, of a room of few switches */
static void every_summary(uint32_t most) {
    for (uint32_t tables = 0; tables < 6; tables++) {
        fail_links(1 + tables / 2);
        for (uint32_t number = 0; number < power(most, entries); number++) {
            for (uint32_t i = 0; i < entries; i++) summary[i] = (uint8_t)(number / power(most, i) % most);
            every_change();
        }
    }
}

static void rooms_of_few_links(void) {
    for (uint32_t ports = 2; ports <= 6; ports++)
        for (uint32_t fill = 2; fill <= ports; fill++) enter(ports, 0, fill), every_table(every_change);
    enter_full(2, 1), every_table(every_change);
    enter(3, 1, 2), every_table(every_change);
    enter(4, 1, 2), every_table(whole_summary);
    for (uint32_t ports = 2; ports <= 4; ports++)
        for (uint32_t fill = 2; fill <= ports; fill++) enter(ports, 0, fill), every_summary(256);
    enter_full(2, 1), every_summary(4);
    enter(3, 1, 2), every_summary(4);
}

/* the question, whose answer has to be this switch; */
static void worked_dead(uint32_t level, uint32_t number) {
    struct question q = with(with(about(DEAD_SWITCH, 0, 0, 0, 0), failed, servers), summary, entries);
    bcube_answer given = {valued(1u << 24 | level << 16 | number)};
    if (!bcube_dead_found(given) || bcube_dead_level(given) != level || bcube_dead_number(given) != number)
        not_as_worked(&q, (answer){given.word, 0}, (answer){given.word, 0});
    worked(q, given.word, "", 0);
}

/* or that there is none */
static void worked_none_dead(void) {
    worked(with(with(about(DEAD_SWITCH, 0, 0, 0, 0), failed, servers), summary, entries), 0, "", 0);
}

/* a switch dead alone, without one of its links, with it again, beside another dead switch, and beside any links */
static void dead_switch(uint32_t level, uint32_t number) {
    uint32_t server = at_port(level, number, any(bound(level)));
    fail_links(0);
    kill_switch(level, number);
    summarize();
    worked_dead(level, number);
    carry(CLEAR, server, level);
    worked_none_dead();
    carry(MARK, server, level);
    carry(MARK, server, level);
    worked_dead(level, number);
    uint32_t other_level = any(k + 1), other = any(switches_at(other_level));
    int before = other_level < level || (other_level == level && other < number);
    kill_switch(other_level, other);
    summarize();
    worked_dead(before ? other_level : level, before ? other : number);
    fail_links(2 + any(4));
    kill_switch(level, number);
    summarize();
    ask_summary(DEAD_SWITCH, 0, 0);
    carry(CLEAR_ALL, server, 0);
    ask_summary(DEAD_SWITCH, 0, 0);
}

/* no switch dead, and all; then each, or in a large room the first, the last and some of each level */
static void dead_switches(void) {
    fail_links(0);
    summarize();
    worked_none_dead();
    fail_links(1);
    summarize();
    worked_dead(0, 0);
    for (uint32_t level = 0; level <= k; level++)
        for (uint32_t i = 0, all = switches_at(level); i < (servers <= SMALL || all < 6 ? all : 6); i++)
            dead_switch(level, servers <= SMALL || i == 0 ? i : i == 1 ? all - 1 : any(all));
}

/* one call with the summary as it is, of this length, and the refusal that it has to give */
static void refused_summary(enum call call, uint32_t server, uint32_t level, size_t len, uint32_t why) {
    struct question q = with(with(about(call, server, level, 0, 0), failed, servers), len ? summary : NULL, len);
    worked(q, why, "", 0);
}

/* a summary of a wrong length, among them one byte a server and n^k a level; and beside a table that is refused */
static void wrong_lengths(enum call call, uint32_t server, uint32_t level) {
    const size_t wrong[] = {0, 1, entries - 1, entries + 1, entries + ARRAY, servers, (k + 1) * power(n, k), MOST};
    for (size_t i = 0; i < sizeof wrong / sizeof *wrong; i++)
        if (wrong[i] != entries && wrong[i] <= sizeof summary) refused_summary(call, server, level, wrong[i], 30);
    uint32_t bad = any(servers), was = failed[bad];
    failed[bad] |= (uint8_t)(2u << k);
    refused_summary(call, server, level, entries, 6);
    refused_summary(call, server, level, entries + 1, 6);
    failed[bad] = (uint8_t)was;
}

/* a wrong entry of a switch of this link, and one of a switch that none of the server's links leads to */
static void wrong_entries(enum call call, uint32_t server, uint32_t level) {
    static const uint8_t off[] = {1, 255, 128, 64};
    uint32_t at = entry_of(server, level), elsewhere = any(entries), touched = 0;
    for (size_t i = 0; i < sizeof off; i++) {
        summary[at] = (uint8_t)(summary[at] + off[i]);
        refused_summary(call, server, level, entries, call == SUMMARIZE ? 0 : 30);
        summary[at] = (uint8_t)(summary[at] - off[i]);
    }
    for (uint32_t l = 0; l <= k; l++) touched |= entry_of(server, l) == elsewhere;
    if (touched) return;
    uint8_t was = summary[elsewhere], wrong = summary[elsewhere] = (uint8_t)(was + 1 + any(255));
    refused_summary(call, server, level, entries, call == DEAD_SWITCH ? 30 : 0);
    if (call < DEAD_SWITCH && ((const uint8_t *)left_summary())[elsewhere] != wrong) {
        struct question q = about(call, server, level, 0, 0);
        not_as_counted(&q);
    }
    summary[elsewhere] = was;
}

/* each wrong entry and each wrong length in each call, at any link of the room */
static void wrong_summaries(void) {
    fail_links(any(2) ? 4 : 0);
    summarize();
    for (uint32_t call = MARK; call <= SUMMARIZE; call++) {
        uint32_t server = any(servers), level = any(k + 1);
        wrong_entries((enum call)call, server, level);
        wrong_lengths((enum call)call, server, level);
    }
}

/* so many changes, most of them at the links of one switch, many made twice: after each the summary carried along has
 * to be the one counted afresh, and the question is asked */
static void changes_in_a_row(uint32_t count) {
    static const enum call turn[] = {MARK, MARK, MARK, MARK, CLEAR, CLEAR, MARK_ALL, CLEAR_ALL};
    uint32_t level = any(k + 1), number = any(switches_at(level));
    fail_links(any(3) ? 0 : 8);
    if (any(2)) kill_switch(level, number);
    summarize();
    for (uint32_t i = 0; i < count; i++) {
        enum call call = turn[any(8)];
        uint32_t server = any(servers), at = any(k + 1);
        if (any(4)) server = at_port(level, number, any(bound(level))), at = level;
        for (uint32_t times = 1 + any(2); times > 0; times--) {
            carry(call, server, at);
            hold_to_count();
            ask_summary(DEAD_SWITCH, 0, 0);
        }
    }
}

static void some_changes_in_a_row(void) { changes_in_a_row(40); }

/* ---- spanning trees */

static unsigned long whole_trees, led; /* trees that were held to the rules, and their servers that were led to the source */

/* how often digit after digit of a server is above the source's; and once round the tree's own level, where it is not */
static uint32_t steps_of(uint32_t source, uint32_t tree, uint32_t server) {
    uint32_t steps = 0;
    for (uint32_t level = 0; level <= k; level++) {
        uint32_t values = bound(level), above = (digit_of(server, level) + values - digit_of(source, level)) % values;
        steps += level == tree && above == 0 ? values : above;
    }
    return steps;
}

/* the most steps of any server */
static uint32_t most_steps(void) { return k == 0 ? m - 1 : k * (n - 1) + m; }

/* from parent to parent, as far as the source; more than the most where that does not end */
static uint32_t steps_by(const uint32_t *parents, uint32_t source, uint32_t server) {
    uint32_t steps = 0;
    while (server < servers && server != source && steps <= most_steps()) server = parents[server], steps++;
    return server == source ? steps : most_steps() + 1;
}

/* what the rules say of a whole tree, by its numbers alone */
static void hold_tree(const struct question *q, const uint32_t *parents) {
    uint32_t source = (uint32_t)q->number[0], tree = (uint32_t)q->number[1], most = 0;
    whole_trees++;
    if (parents[source] != BCUBE_NO_PARENT) not_a_tree(q, "the source has a parent", source);
    for (uint32_t x = 0; x < servers; x++) {
        if (x == source) continue;
        uint32_t steps = steps_by(parents, source, x);
        if (bcube_value(plain_between(room, parents[x], x)) == 0) not_a_tree(q, "a parent that is no neighbour", x);
        if (steps != steps_of(source, tree, x)) not_a_tree(q, "another number of steps to the source", x);
        if (steps > most) most = steps;
        led++;
    }
    if (most != most_steps()) not_a_tree(q, "other most steps", source);
    for (uint32_t x = servers; x < BCUBE_TREE_NUMBERS; x++)
        if (parents[x] != 0) not_a_tree(q, "a number past the last server", x);
}

/* no hop from a parent to its child stands in two trees */
static void hold_apart(const struct question *q, uint32_t parents[4][BCUBE_TREE_NUMBERS]) {
    for (uint32_t x = 0; x < servers; x++)
        for (uint32_t tree = 1; tree <= k; tree++)
            for (uint32_t lower = 0; lower < tree; lower++)
                if (x != q->number[0] && parents[tree][x] == parents[lower][x]) not_a_tree(q, "a hop of two trees", x);
}

/* a tree whole, and the parent of each server, which has to be the one that stands there */
static void one_tree(const struct question *q, uint32_t parents[BCUBE_TREE_NUMBERS]) {
    ask(q);
    memcpy(parents, left(), sizeof(uint32_t) * BCUBE_TREE_NUMBERS);
    hold_tree(q, parents);
    for (uint32_t x = 0; x < servers; x++) {
        uint64_t word = x == q->number[0] ? refused(5, 0, 0) : valued(parents[x]);
        worked(about(PARENT, q->number[0], q->number[1], x, 0), word, "", 0);
    }
}

/* a tree that there is not, or of a source that there is not: the refusal, with any server and with the source itself */
static void no_tree(uint64_t source, uint64_t tree, uint32_t why) {
    worked(about(TREE, source, tree, 0, 0), refused(why, 0, 0), "", 0);
    worked(about(PARENT, source, tree, any(servers), 0), refused(why, 0, 0), "", 0);
    worked(about(PARENT, source, tree, source, 0), refused(why, 0, 0), "", 0);
}

/* all trees of a source */
static void trees_from(uint32_t source) {
    static uint32_t parents[4][BCUBE_TREE_NUMBERS];
    struct question q = about(TREE, source, 0, 0, 0);
    for (uint32_t tree = 0; tree <= k; tree++) {
        q.number[1] = tree;
        one_tree(&q, parents[tree]);
    }
    hold_apart(&q, parents);
}

/* all trees of all sources; then trees that are none, sources that are none, and servers that are none */
static void every_tree(void) {
    for (uint32_t source = 0; source < servers; source++) trees_from(source);
    for (uint32_t i = 0; i < BEYOND; i++) {
        no_tree(any(servers), beyond(k + 1 + i, k + 1), 20);
        no_tree(beyond(servers + i, servers), any(2) ? any(k + 1) : k + 1, 4);
        worked(about(PARENT, any(servers), any(k + 1), beyond(servers + i, servers), 0), refused(4, 0, 0), "", 0);
    }
}

/* of the first source, of the last and of some */
static void some_trees(void) {
    trees_from(0);
    trees_from(servers - 1);
    for (uint32_t i = 0; i < 2; i++) trees_from(any(servers));
}

/* a parent and a whole tree in a room that is refused with this number, or with none where it is 0: sources, trees and
 * servers that there are and that there are not, and of all that applies the first is given */
static void mixed(uint32_t room_why) {
    for (uint32_t a = 0; a < 1 + BEYOND; a++)
        for (uint32_t t = 0; t < 1 + BEYOND; t++) {
            uint64_t source = a == 0 ? any(servers) : beyond(servers + a - 1, servers);
            uint64_t tree = t == 0 ? any(k + 1) : beyond(k + t, k + 1);
            uint32_t why = a != 0 ? 4 : t != 0 ? 20 : 0;
            worked(about(TREE, source, tree, 0, 0), room_why ? room_why : why ? why : valued(servers), "", 0);
            why = room_why ? room_why : why ? why : 5;
            worked(about(PARENT, source, tree, source, 0), why, "", 0);
            for (uint32_t x = 0; x < BEYOND; x++)
                worked(about(PARENT, source, tree, beyond(servers + x, servers), 0), room_why ? room_why : 4, "", 0);
        }
}

static void mixed_trees(void) {
    static const struct { uint32_t n, k, m, why; } none[] = {
        {65, 4, 66, 1}, {1, 0, 2, 1}, {64, 4, 65, 2}, {8, 4, 1, 2}, {8, 3, 9, 26}, {64, 3, 1, 26}, {9, 3, 9, 3}, {64, 3, 2, 3}};
    bcube_room is = room;
    mixed(0);
    for (size_t i = 0; i < sizeof none / sizeof *none; i++) {
        room = plain_filled_room(none[i].n, none[i].k, none[i].m);
        mixed(none[i].why);
    }
    room = is;
}

/* ---- all small rooms */

static void part(const char *what) {
    static unsigned long before;
    printf("%-67s %9lu comparisons\n", what, comparisons() - before);
    fflush(stdout);
    before = comparisons();
}

/* every full room of at most 64 servers; of those with one level, of 2 to 64 ports, only those so far apart */
static void small_full_rooms(void (*what)(void), uint32_t apart) {
    for (uint32_t levels = 0; levels <= 3; levels++)
        for (uint32_t ports = 2; power(ports, levels + 1) <= SMALL; ports += levels == 0 ? apart : 1) {
            enter_full(ports, levels);
            what();
        }
}

/* every half-filled room of at most 64 servers; but of those with one level, and of those with two, one in so many */
static void small_half_filled_rooms(void (*what)(void), uint32_t of_one_level, uint32_t of_two_levels) {
    for (uint32_t levels = 0; levels <= 3; levels++) {
        uint32_t one_in = levels == 0 ? of_one_level : levels == 1 ? of_two_levels : 1, number = 0;
        for (uint32_t ports = 3; ports <= 64 && 2 * power(ports, levels) <= SMALL; ports++)
            for (uint32_t fill = 2; fill < ports && fill * power(ports, levels) <= SMALL; fill++) {
                if (number++ % one_in != 0) continue;
                enter(ports, levels, fill);
                what();
            }
    }
}

/* the calls that ask for nothing but the shape, and a level */
static void one_shape(void) {
    bcube_answer shape = ask_numbers(SHAPE, 0, 0, 0, 0);
    ask_numbers(SERVERS, 0, 0, 0, 0);
    for (uint64_t level = 0; level < (bcube_refusal(shape) ? 1 : 5); level++) {
        ask_numbers(BOUND, level, 0, 0, 0);
        ask_numbers(SWITCHES, level, 0, 0, 0);
    }
}

/* a number on either side of 255, or an odd one */
static uint64_t around_255(void) { return any(2) ? any(260) : odd(); }

/* rooms made of every two numbers up to 259, and of any two and any three */
static void rooms_of_any_numbers(void) {
    for (uint64_t ports = 0; ports < 260; ports++)
        for (uint64_t levels = 0; levels < 260; levels++) ask_numbers(ROOM_OF, ports, levels, 0, 0);
    for (uint32_t i = 0; i < 100000; i++) {
        uint64_t ports = around_255(), levels = around_255();
        ask_numbers(ROOM_OF, ports, levels, 0, 0);
        ask_numbers(FILLED_ROOM, ports, levels, any(4) ? around_255() : ports, 0);
    }
}

static void every_shape(void) {
    for (uint32_t ports = 0; ports < 70; ports++)
        for (uint32_t levels = 0; levels < 8; levels++)
            for (uint32_t fill = 0; fill < 70; fill++) {
                uint64_t p = ports == 69 ? odd() : ports, l = levels == 7 ? odd() : levels;
                uint64_t f = fill == 69 ? odd() : fill;
                ask_numbers(FILLED_ROOM, p, l, f, 0);
                room = plain_filled_room(p, l, f);
                one_shape();
                room.number = odd();
                ask_numbers(SERVERS, 0, 0, 0, 0);
            }
}

/* ---- questions of any kind, and what is done to them */

static uint8_t path[64], fresh[64], kept[64];
static uint64_t met[16];

static uint32_t any_server(void) { return any(servers); }

static void make_table(uint32_t source, uint32_t destination) {
    static const uint32_t one_in[] = {0, 0, 2, 4, 8, 16, 64};
    fail_links(one_in[any(7)]);
    if (any(2)) break_routes(source, destination);
    if (any(8) == 0) kill_server(any_server());
    if (any(24) == 0) kill_server(destination);
}

/* a summary, to go with the table: its own, or to be counted afresh any; the switch of the link may be dead */
static void make_summary(struct question *q) {
    uint32_t level = any(k + 1);
    if (any(4) == 0) kill_switch(level, any(switches_at(level)));
    summarize();
    if (q->call == SUMMARIZE && any(2))
        for (uint32_t i = 0; i < entries; i++) summary[i] = (uint8_t)any(256);
    lend(q, 1, summary, entries);
}

/* the servers along an array of path bytes, for the writer; gives how many */
static size_t along(uint32_t source, uint32_t destination) {
    uint8_t array[ARRAY];
    size_t count = 0;
    make_array(source, destination, array);
    for (met[count++] = source; count < 9 && met[count - 1] != destination; count++)
        met[count] = after((uint32_t)met[count - 1], array[count - 1]);
    return count;
}

/* a question that is right, or nearly */
static struct question any_question(enum call call) {
    uint32_t source = any_server(), destination = another(source);
    uint8_t routes[BCUBE_LIST_BYTES];
    struct question q = about(call, source, destination, 0, 0);
    if (call <= HOP_OF || call == BUILD) {
        uint32_t level = any(k + 1);
        if (call == ROOM_OF || call == FILLED_ROOM) q.number[0] = any(70), q.number[1] = any(6), q.number[2] = any(70);
        if (call == BOUND || call == SWITCHES || call == SERVER_AT || call == PATH_BYTE) q.number[0] = level;
        if (call == SERVER_AT) q.number[1] = any(servers / bound(level)), q.number[2] = any(bound(level));
        if (call == PATH_BYTE) q.number[1] = any(bound(level));
        if (call == PATH_BYTE_PARTS) q.number[0] = any(256);
        if (call == HOP_OF) q.number[1] = any(2) ? any_hop(source) : any(256);
        if (call == ADDRESS)
            for (uint32_t i = 0; i < 4; i++) q.number[i] = i <= k ? any(bound(i)) : 0;
        if (call == DIGIT || call == SWITCH || call == NEIGHBOUR) q.number[1] = level;
        if (call == NEIGHBOUR) q.number[2] = any(bound(level));
        if (call == BETWEEN && any(2)) q.number[1] = after(source, any_hop(source));
    } else if (call == READ || call == REVERSE) {
        make_array(source, destination, path);
        lend(&q, 0, path, ARRAY);
    } else if (call == WRITE) {
        lend(&q, 0, met, along(source, destination));
    } else if (call == STEP) {
        make_array(source, destination, path);
        q.number[2] = any(ARRAY + 2);
        if (any(8) == 0) q.number[1] = q.number[0];
        lend(&q, 0, path, ARRAY);
        lend(&q, 1, neighbours, BCUBE_NEIGHBOUR_TABLE_BYTES);
    } else if (call == PARENT || call == TREE) {
        q.number[1] = any(k + 1);
        if (call == PARENT) q.number[2] = any(8) ? destination : source;
    } else {
        if (call == FAILED_LINK || call == MARK || call == CLEAR) q.number[1] = any(k + 1);
        make_table(source, destination);
        lend(&q, 0, failed, servers);
        if (call >= MARK && call <= SUMMARIZE) make_summary(&q);
        plain_build(room, source, destination, routes);
        if (call == CHECK || call == PICK) lend(&q, 1, fresh, make_list(source, destination, routes, fresh));
        if (call == PICK) lend(&q, 2, kept, make_list(source, destination, routes, kept));
    }
    return q;
}

/* n, k or m as it should not be, too many servers, or any number */
static bcube_room damaged_room(void) {
    uint32_t ports = 13 + any(52), levels = 2 + any(2);
    switch (any(5)) {
    case 0: return any(2) ? plain_room_of(odd(), k) : plain_filled_room(odd(), k, m);
    case 1: return plain_filled_room(n, odd(), m);
    case 2: return plain_filled_room(n, k, any(2) ? odd() : any(2) ? any(2) : n + 1 + any(3));
    case 3: return plain_filled_room(ports, levels, 2 + any(64));
    default: return (bcube_room){any(2) ? odd() : room.number + (UINT64_C(1) << any(64))};
    }
}

static void damage_number(struct question *q) {
    switch (any(10)) {
    case 0: case 1: case 2: case 3: q->room = damaged_room(); break;
    case 4: q->number[1] = q->number[0]; break;
    case 5: q->number[any(4)] = servers + any(2); break;
    case 6: q->number[any(4)] += UINT64_C(1) << (8 + any(56)); break;
    default: q->number[any(4)] = odd();
    }
}

/* a length that is not right: shorter, longer, none, the table's for the summary, or as far off as there is room */
static size_t wrong_length(enum call call, const void *at, size_t len) {
    int of_links = at == failed || at == summary;
    size_t room = of_links ? MOST + ARRAY : at == neighbours ? sizeof neighbours : call == WRITE ? 16 : 64;
    if (of_links && any(7) == 0) return at == failed ? entries : servers;
    switch (any(6)) {
    case 0: return 0;
    case 1: return len > 0 ? len - 1 : 1;
    case 2: return len < room ? len + 1 : room;
    case 3: return len + ARRAY <= room ? len + ARRAY : room;
    case 4: return len >= ARRAY ? len - ARRAY : room;
    default: return any((uint32_t)room + 1);
    }
}

/* servers to write: another one, the first as the last, or one that is none, each or together */
static void damage_servers(uint32_t count) {
    if (any(2)) met[any(count)] = any_server();
    if (any(2)) met[count - 1] = met[0];
    if (any(2)) met[any(count)] = odd();
}

/* an entry of any switch, or of one of the server's; a small number may be right */
static void damage_summary(uint64_t server) {
    uint32_t at = any(2) ? any(entries) : entry_of(server, any(k + 1));
    summary[at] = (uint8_t)any(any(2) ? 4 : 256);
}

static void damage_buffer(struct question *q) {
    int i = (int)any(3);
    if (!q->lent[i].at) i = 0;
    if (!q->lent[i].at) return;
    const void *at = q->lent[i].at;
    if (any(16) == 0) lend(q, i, NULL, 0);
    else if (any(2)) q->lent[i].len = wrong_length(q->call, at, q->lent[i].len);
    else if (at == failed) failed[any(3) ? any_server() : any(2) ? 0 : servers - 1] |= (uint8_t)(1u << any(8));
    else if (at == summary) damage_summary(q->number[0]);
    else if (at == path) path[any(ARRAY)] = (uint8_t)any(256);
    else if (at == fresh) fresh[any(64)] = (uint8_t)any(256);
    else if (at == kept) kept[any(64)] = (uint8_t)any(256);
    else if (at == met && q->lent[i].len) damage_servers((uint32_t)q->lent[i].len);
    else neighbours[BCUBE_NEIGHBOUR_ENTRY_BYTES * path[q->number[2] % ARRAY] + BCUBE_NEIGHBOUR_FLAG] = (uint8_t)any(4);
}

static void any_room(void) {
    uint32_t ports, levels, fill, size;
    if (any(4) == 0) {
        enter_chosen(any(CHOSEN));
        return;
    }
    do {
        levels = any(8) ? 1 + any(3) : 0;
        ports = 2 + any(levels == 2 ? 44 : levels == 3 ? 11 : 63);
        fill = any_fill(ports);
        size = fill * power(ports, levels);
    } while (size > MOST || (any(2) && size > 256));
    enter(ports, levels, fill);
}

/* with levels 0 to so many, or to more */
static void any_room_of_levels(uint32_t levels) {
    do any_room();
    while (k < levels);
}

/* questions of every call; in large rooms, where each takes long, the searches are fewer, those with a summary, and trees */
static void any_questions(uint32_t count) {
    fill_neighbours();
    for (uint32_t i = 0; i < count; i++) {
        if (i % 4 == 0) any_room();
        enum call call = (enum call)any(CALLS);
        if ((call == FIND || call == SELECT) && servers > 256 && any(12)) continue;
        if (((call >= MARK && call <= SUMMARIZE) || call >= PARENT) && servers > 256 && any(3)) continue;
        struct question q = any_question(call);
        if (any(2))
            for (uint32_t times = 1 + any(3); times > 0; times--) (any(2) ? damage_number : damage_buffer)(&q);
        ask(&q);
    }
}

/* every call in rooms of damaged shapes, each of 1, 2, 26 and 3 alone and together with each other: n, k and m at
 * and past their limits, as bcube_filled_room makes the room of them and as the bytes of a number, where m has all that
 * is above k */
static void damaged_shapes(void) {
    static const uint64_t ports[] = {0, 1, 2, 8, 9, 13, 46, 64, 65, 255}, levels[] = {0, 1, 2, 3, 4, 255};
    static const uint64_t fills[] = {0, 1, 2, 3, 8, 9, 10, 63, 64, 65, 66, 255, 256, 258, 65535, UINT64_C(1) << 32,
                                     UINT64_C(1) << 46, (UINT64_C(1) << 46) + 2, UINT64_MAX};
    for (uint32_t call = SHAPE; call < CALLS; call++)
        for (size_t p = 0; p < sizeof ports / sizeof *ports; p++)
            for (size_t l = 0; l < sizeof levels / sizeof *levels; l++)
                for (size_t f = 0; f < sizeof fills / sizeof *fills; f++) {
                    uint32_t small = 2 + any(3);
                    enter_any(small, any(3));
                    struct question q = any_question((enum call)call);
                    q.room = plain_filled_room(ports[p], levels[l], fills[f]);
                    ask(&q);
                    q.room.number = ports[p] | levels[l] << 8 | fills[f] << 16;
                    ask(&q);
                }
}

/* lengths that are right in their low 32 bits, over memory that is there */
static void vast_lengths(void) {
    const size_t over = (size_t)1 << 32;
    const void *vast = vast_area();
    if (!vast) {
        printf("this machine gives no 4 GiB of addresses: lengths above 2^32 are left out\n");
        return;
    }
    for (int i = 0; i < 400; i++) {
        any_room();
        struct question q = any_question((enum call)any(CALLS));
        int lent = 0;
        while (lent < 3 && q.lent[lent].at) lent++;
        if (lent == 0 || (servers > 256 && (q.call == FIND || q.call == SELECT))) continue;
        lent = (int)any((uint32_t)lent);
        q.lent[lent].len += over;
        if (q.call == WRITE) q.lent[lent].len = over / 8 + 2;
        q.lent[lent].at = vast;
        ask(&q);
    }
}

/* pairs of a room, with every path byte at one of them */
static void some_pairs(uint32_t pairs) {
    fill_neighbours();
    for (uint32_t i = 0; i < pairs; i++) {
        uint32_t source = any_server(), destination = another(source);
        make_table(source, destination);
        one_pair(source, destination);
    }
    make_table(0, 1);
    every_byte(any_server(), any_server());
    every_hop_from(any_server());
    every_hop_from(any(2) ? servers - 1 : servers + any(2));
}

/* lists in rooms of live links, most of them of four levels, and most of routes that read: what is left is whether they
 * are parallel; and walks that come round, alone and in a list */
static void any_lists(uint32_t lists) {
    for (uint32_t i = 0; i < lists; i++) {
        uint8_t routes[BCUBE_LIST_BYTES], list[BCUBE_LIST_BYTES] = {0};
        if (i % 16 == 0) any_room_of_levels(any(4) ? 3 : 1);
        uint32_t source = any_server(), destination = another(source), count = 2 + any(k), kind = any(4);
        uint8_t *array = list + ARRAY * any(count);
        plain_build(room, source, destination, routes);
        if (kind == 0) {
            by_way_of_one(source, destination, list, count);
        } else if (kind == 1) {
            with_repeats(routes, list, count);
        } else if (kind == 2) {
            by_way_of_another(source, destination, routes, list, count);
        } else {
            memcpy(list, routes, ARRAY * count);
            ask_walk(source, destination, array, come_round(source, array));
        }
        if (any(8) == 0) list[any(ARRAY * count)] = any_hop(any_server());
        ask_check(source, destination, list, ARRAY * count);
    }
}

static void one_round(void) {
    any_questions(200000);
    any_lists(10000);
    vast_lengths();
    for (uint32_t i = 0; i < CHOSEN; i++) enter_chosen(i), some_pairs(12);
    for (uint32_t i = 0; i < CHOSEN; i++) enter_chosen(i), changes_in_a_row(40), wrong_summaries();
    for (uint32_t i = 0; i < 20; i++) any_room(), changes_in_a_row(20), wrong_summaries();
    for (uint32_t i = 0; i < 20; i++) any_room(), trees_from(any_server());
    for (uint32_t i = 0; i < 4; i++) any_room(), mixed_trees();
    for (int i = 0; i < 6; i++) enter_any(3 + any(5), 3), some_pairs(8);
    for (int i = 0; i < 6; i++) enter_any(5 + any(11), 2), some_pairs(8);
    for (int i = 0; i < 6; i++) enter_any(9 + any(55), 1), some_pairs(8);
    enter_any(2 + any(3), 2);
    fail_links(2 + any(12));
    every_pair(1);
}

/* ---- the run */

static void progress(unsigned long round, unsigned long rounds) {
    static time_t said;
    int seen = isatty(1);
    if (time(NULL) - said < (seen ? 1 : 60) && round != rounds) return;
    said = time(NULL);
    printf("%sround %lu of %lu: %lu comparisons, %lu differ%s", seen ? "\r" : "", round, rounds, comparisons(),
           differences(), seen && round != rounds ? "" : "\n");
    fflush(stdout);
}

int main(int count, char **words) {
    unsigned long rounds = count > 1 ? strtoul(words[1], NULL, 10) : 1;
    open_both();
    fill_neighbours();
    worked_addresses();
    worked_shapes();
    worked_half_filled();
    worked_half_filled_routes();
    worked_wiring();
    worked_hops();
    worked_summaries();
    worked_places();
    worked_nothing();
    worked_routes();
    worked_refusals();
    worked_again();
    worked_meetings();
    worked_steps();
    worked_picking();
    worked_whole_trees();
    worked_parents();
    part("worked by hand");
    rooms_of_any_numbers();
    part("rooms made of any numbers");
    every_shape();
    part("every shape and more");
    damaged_shapes();
    part("every call in rooms of damaged shapes");
    small_full_rooms(every_server, 1);
    small_full_rooms(every_digit, 1);
    small_full_rooms(every_port, 1);
    small_full_rooms(every_link, 1);
    part("full rooms of at most 64 servers: every server, level, value");
    small_full_rooms(pairs_under_tables, 1);
    part("full rooms of at most 64 servers: every ordered pair");
    small_full_rooms(every_hop, 31);
    small_full_rooms(every_hop_by_itself, 1);
    part("full rooms of at most 64 servers: every path byte");
    small_half_filled_rooms(every_server, 1, 1);
    small_half_filled_rooms(every_digit, 1, 1);
    small_half_filled_rooms(every_port, 1, 1);
    small_half_filled_rooms(every_link, 31, 1);
    part("half-filled rooms of at most 64 servers: every server, level, value");
    small_half_filled_rooms(pairs_under_tables, 31, 7);
    enter(4, 1, 2);
    pairs_under_tables();
    part("half-filled rooms of at most 64 servers: every ordered pair");
    small_half_filled_rooms(every_hop, 311, 7);
    small_half_filled_rooms(every_hop_by_itself, 31, 1);
    part("half-filled rooms of at most 64 servers: every path byte");
    small_half_filled_rooms(every_vacant_port, 1, 1);
    for (uint32_t i = 0; i < CHOSEN; i++) enter_chosen(i), every_vacant_port();
    part("half-filled rooms: every vacant port");
    every_walk_of_tight_rooms();
    part("rooms of few servers: every walk until it is refused");
    every_two_routes_of_tight_rooms();
    part("rooms of few servers: every two routes of a pair");
    every_two_orders_of_four_levels();
    part("rooms of four levels: every two orders of the digits");
    rooms_of_few_links();
    part("rooms of few links: every table, and every summary beside some");
    small_full_rooms(dead_switches, 1);
    small_half_filled_rooms(dead_switches, 1, 1);
    for (uint32_t i = 0; i < CHOSEN; i++) enter_chosen(i), dead_switches();
    part("every switch dead in small rooms, some in larger ones");
    for (int i = 0; i < 8; i++) small_full_rooms(wrong_summaries, 1), small_half_filled_rooms(wrong_summaries, 31, 1);
    part("rooms of at most 64 servers: wrong summaries");
    small_full_rooms(some_changes_in_a_row, 1);
    small_half_filled_rooms(some_changes_in_a_row, 31, 1);
    part("rooms of at most 64 servers: changes in a row");
    small_full_rooms(every_tree, 1);
    small_half_filled_rooms(every_tree, 1, 1);
    part("rooms of at most 64 servers: every tree of every source");
    for (uint32_t i = 0; i < CHOSEN; i++) enter_chosen(i), some_trees();
    part("larger rooms: every tree of some sources");
    for (uint32_t i = 0; i < CHOSEN; i++) enter_chosen(i), mixed_trees();
    part("trees and parents refused, in every mixture");
    for (unsigned long round = 1; round <= rounds; round++) {
        one_round();
        if (rounds > 1) progress(round, rounds);
    }
    part("rooms of every size, right and damaged");
    printf("%lu whole trees, whose %lu servers the parents lead to the source in the steps of the rules\n", whole_trees, led);
    int amiss = print_counts();
    if (amiss) printf("%d of these counts are amiss\n", amiss);
    printf("%lu comparisons, %lu differ\n", comparisons(), differences());
    return differences() != 0 || amiss != 0;
}
