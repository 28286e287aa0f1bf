/* bcube.h: the routes of a BCube room, for a driver in C (C99 or later) or C++ (C++11 or later).
 *
 * `./library PREFIX` puts this file into PREFIX/include, and libbcube.a and libbcube.so, for x86-64 Linux, into
 * PREFIX/lib. The library needs nothing but memcpy and memset, keeps no state and no pointer, allocates
 * nothing, and may be called from any thread, by many at once. What each call answers is proved for every
 * argument, so no argument has to be tested before a call: a call answers, or it refuses with a number.
 *
 * THE ROOM. Every call begins with the room, a value made once: the full room by bcube_room_of(n, k), and one whose
 * level k is filled in part only by bcube_filled_room(n, k, m):
 *   n, k, m      n ports a switch (2 to 64), levels 0 to k (k is 0 to 3), and the fill m (2 to n): how many values
 *                digit k has, which are all n in a full room. N = m * n^k, the number of servers, is at most 4,096
 *   a server     a number below N, its address: the sum of digit i times n^i, for i from 0 to k; digit k is
 *                below m, and every other digit below n
 *   a level      0 to k; its bound is what a digit at that level is below: m at level k, n at every other
 *   a switch     a level l and a number: the digits of any of its servers with digit l struck out and the
 *                rest closed up, to the base n; a server is at the port of its digit l. A level has N divided by
 *                its bound switches, and each has as many ports in use as the bound
 *   a link       a server and a level: the cable from that server to its switch at that level
 *   a hop        from one server to another that differs in one digit, at level l; it uses both servers'
 *                links at level l, and the switch between them
 *
 * PATH BYTES. A route leads from a server to another one by 1 to 8 hops; no server and no switch comes on it a
 * second time. It is written as an array of 8 bytes, one byte a hop: 64 times the level plus the new value of
 * the digit at that level. The route ends where it first reaches the destination, and not at a zero byte:
 * a zero byte is a hop like any other (level 0, value 0). The bytes after the last hop are zero.
 * A list of routes is one array after another, at most k+1 of them. Two routes are parallel when they
 * share no switch, and no server but the ends.
 *
 * THE WAY BACK. A hop's old value is the value that it replaces: the digit, at the hop's level, of the server hopped
 * from. 64 times the level plus the old value is the path byte of the way back: a hop by it from the server that the
 * hop led to leads back. bcube_step gives it with each step, and bcube_hop_of for a hop by itself. The bytes of the way
 * back of a packet's steps, in turn, are its trace. Read backwards, with zeros after, the trace of a packet that came
 * by a route is the array that bcube_reverse writes for that route.
 *
 * THE FAILED-LINK TABLE has one byte a server, N in all (4,096 at most). Bit l of byte s is set while server
 * s's link at level l is failed. The driver owns it: begin with N zero bytes, and use bcube_mark and
 * bcube_clear, or bcube_mark_all and bcube_clear_all for all links of a server. Every call that
 * takes the table tests all of it (refusal 6). Where it has passed that test, and only these calls have
 * written to it since, a driver may read one bit itself, table[server] >> level & 1, and save the test.
 *
 * THE SUMMARY stands beside the table and has one byte a switch, its entry: how many of the switch's servers have
 * their link to it failed (64 at most). The switches of level 0 come first, by number, then those of level 1, and so
 * on: an entry's place is the switch's number plus what bcube_switches gives for each lower level. Its length is the
 * sum of bcube_switches over the levels 0 to k, and no other is taken; BCUBE_MOST_SWITCHES bytes are room for
 * the entries of any room. The driver owns it as it owns the table: begin with zeros in both, and hand both to the
 * four calls above, which carry the summary along. For a table that has no summary yet, kept from before version 4 or
 * written by other means, count one by bcube_summarize. A call tests the entries that it goes by (refusal 30): a mark
 * or a clear those of the switches that it touches, bcube_dead_switch all. It leaves every other byte of the summary
 * alone, whatever that holds. Table and summary must not overlap.
 *
 * SPANNING TREES. A file for all servers goes out from one of them, the source, by k+1 trees, numbered 0 to k. In each
 * every server but the source has one parent, a neighbour, which hands it the file. From any server the way from parent to
 * parent ends at the source, after k * (n - 1) + m hops at most (m - 1 where k is 0). No hop from one server to another
 * stands in two of the trees; so of a file in k+1 parts, part l by tree l, every server gets every part, and no hop
 * carries two. bcube_parent names one parent, bcube_tree those of a whole tree. Neither looks at failed links.
 *
 * THE ANSWER of every call but bcube_step is one word, in a type of its own. Read it by bcube_refusal,
 * bcube_value, bcube_route and bcube_hop. Where bcube_refusal gives BCUBE_NOT_REFUSED, the value is the answer,
 * and the out buffer, if the call has one, is written in full. Otherwise the call is refused: bcube_refusal
 * says why, bcube_route and bcube_hop say where (both count from 1, and are 0 where the refusal has no such
 * place), the value is 0, and every buffer keeps the bytes it was lent with. Three refusals name an earlier place
 * too, where the same server or switch came before: 28 and 29 on the same route, and 15 on another. Read it by
 * bcube_earlier_route and bcube_earlier_hop.
 *
 *     bcube_room room = bcube_room_of(8, 3);
 *     uint8_t routes[BCUBE_LIST_BYTES];
 *     bcube_answer answer = bcube_select(room, source, destination, table, table_len, routes);
 *     if (bcube_refusal(answer) == BCUBE_NOT_REFUSED) .. bcube_value(answer) routes are in `routes` ..
 *     else puts(bcube_refusal_text(bcube_refusal(answer)));
 *
 * Each call below lists what it can refuse, in the order in which that is tried; the first that applies is
 * given. What the numbers mean stands at the names of the refusals.
 *
 * NUMBERS are all uint64_t, but for those of a whole tree, and are tested as they come: none is cut before it is tested.
 *
 * BUFFERS. A buffer of any length comes as a pointer and a length, in bytes, or for bcube_write's servers
 * in numbers. It must point to as many readable elements as its length says (writable, for the tables and summaries
 * that a call takes without const). A null pointer with length 0 is a good empty buffer; with any other length it is
 * a pointer to memory that is not there, like any wild pointer, and no call looks for it. Wrong lengths are
 * refused, not read. A buffer of a fixed length, such as `uint64_t digits[4]`, is a pointer to that many
 * writable elements, and never null. A buffer that a call writes to must not overlap any other buffer of the call.
 * Buffers are used only during the call. Two threads must not lend the same buffer at once if either call writes
 * to it: a table and its summary are the driver's to guard, and as one, since the calls hold them to each other.
 *
 * COST. Each call says what it costs: a constant few instructions; the table, which is a pass over the N
 * bytes of the failed-link table; the servers of a switch, at most 64, or all links, each asked once; a tree, which is
 * a constant for each server, and the 4,096 numbers; or a search, which may visit every server. It says too how many
 * bytes of stack it takes at most, beside its return address: tests/c/stack measures that, and it is written here
 * rounded up to 64. docs/PERFORMANCE.md has the instructions.
 *
 * WHERE IT RUNS. In user space, on x86-64-v2 (processors with SSE4.2). For a kernel the library would have to be
 * compiled again, without SSE registers and without a red zone, and with a stack for the searches. bcube_step uses
 * neither of the two and calls nothing: tests/c/stack holds it to that. */
#ifndef BCUBE_H
#define BCUBE_H

#include <stddef.h>
#include <stdint.h>

#ifdef __cplusplus
extern "C" {
#endif

/* An answer that is not looked at is a mistake, and so is a null pointer for a buffer of a fixed length: a
 * compiler that can say so is asked to. */
#if defined(__GNUC__) || defined(__clang__)
#define BCUBE_RESULT __attribute__((warn_unused_result))
#define BCUBE_BUFFER(parameter) __attribute__((nonnull(parameter)))
#else
#define BCUBE_RESULT
#define BCUBE_BUFFER(parameter)
#endif

/* ---- the version: 10,000 times the first number, 100 times the second, and the third */

#define BCUBE_VERSION 50100 /* 5.1.0; docs/CHANGES.md says what each version changed */

/* The version of the library that the program runs with, to hold against BCUBE_VERSION, the header's. Another
 * first number says that the two may not fit: docs/CHANGES.md says what it changed. A library of a lower version lacks
 * what was added since: before 50100 bcube_parent and bcube_tree; before 50000 it gives 12 for 28 and 29, and 15 with hop 0,
 * and bcube_earlier_route and bcube_earlier_hop read 0 of every answer; before 40100 bcube_step_level, bcube_step_old and
 * bcube_step_back read 0 of every step. Cost: constant; 0 bytes of stack. */
BCUBE_RESULT uint64_t bcube_version(void);

/* ---- limits and sizes */

#define BCUBE_FEWEST_PORTS 2     /* n is 2 */
#define BCUBE_MOST_PORTS 64      /* to 64 */
#define BCUBE_MOST_LEVEL 3       /* k is 0 to 3 */
#define BCUBE_LEAST_FILL 2       /* m is 2 to n */
#define BCUBE_MOST_SERVERS 4096  /* N is at most this */
#define BCUBE_MOST_SWITCHES 2592 /* a room has at most as many switches as (12,3,2) */
#define BCUBE_MOST_HOPS 8        /* a route has 1 to 8 hops */

#define BCUBE_PATH_BYTES 8    /* the path bytes of a packet, or of one route */
#define BCUBE_LIST_BYTES 32   /* room for the most routes of a list: 4 arrays */
#define BCUBE_ROUTE_SERVERS 9 /* room for the servers of one route */

#define BCUBE_TREE_NUMBERS 4096     /* room for a whole tree: a number for each server of any room */
#define BCUBE_NO_PARENT 4294967295u /* what stands there for the source */

#define BCUBE_NEIGHBOUR_TABLE_BYTES 2048 /* a neighbour table: 256 entries */
#define BCUBE_NEIGHBOUR_ENTRY_BYTES 8    /* one entry: MAC at 0 to 5, */
#define BCUBE_NEIGHBOUR_PORT 6           /* OutPort, */
#define BCUBE_NEIGHBOUR_FLAG 7           /* StatusFlag */
#define BCUBE_NEIGHBOUR_AVAILABLE 1      /* the flag of an available neighbour */

/* ---- the refusals, one name each, which is the name that the sources have
 *
 * Where one arises: 8 to 11, 23, 28 and 29 have the route and the hop at which they were found (a step's, and its
 * 19, the index + 1); 13 has hop 8; 14 the place of the first byte after the arrival that is not zero; 15 the
 * later route of the pair, and its hop where the two first meet. A single array, a single byte, a hop asked for by
 * itself, and the servers to write, are route 1; a single byte and a hop by itself are its hop 1. All other refusals
 * have route 0 and hop 0.
 *
 * The earlier place: 28 names the hop that reached the server before, hop 0 being the source, and 29 the hop that used
 * the switch before, which is never hop 0. There is only one such hop. It is of the same route, so that the earlier
 * route is 0. A hop to a server met before, by a switch used before, is 28. 15 names the first route of the pair, and
 * its hop where the two first meet. A hop of the one and a hop of the other meet if both use the same switch, or both
 * lead to the same server and that is no end; they first meet at the lowest such hop of the first route, and there at
 * the lowest of the later one. All other refusals have earlier route 0 and earlier hop 0. */
#define BCUBE_NOT_REFUSED 0
#define BCUBE_REFUSED_PORTS 1
#define BCUBE_REFUSED_LEVELS 2
#define BCUBE_REFUSED_SERVERS 3
#define BCUBE_REFUSED_ADDRESS 4
#define BCUBE_REFUSED_SAME_ENDS 5
#define BCUBE_REFUSED_TABLE 6
#define BCUBE_REFUSED_LIST 7
#define BCUBE_REFUSED_POSITION 8
#define BCUBE_REFUSED_VALUE 9
#define BCUBE_REFUSED_NO_CHANGE 10
#define BCUBE_REFUSED_FAILED_LINK 11
/* 12 is retired: before version 5 it stood for both 28 and 29 */
#define BCUBE_REFUSED_NOT_ARRIVED 13
#define BCUBE_REFUSED_AFTER_ARRIVAL 14
#define BCUBE_REFUSED_NOT_PARALLEL 15
#define BCUBE_REFUSED_NO_ROUTE 16
#define BCUBE_REFUSED_NEIGHBOUR_TABLE 17
#define BCUBE_REFUSED_HOP_INDEX 18
#define BCUBE_REFUSED_UNAVAILABLE 19
#define BCUBE_REFUSED_LEVEL 20
#define BCUBE_REFUSED_DIGIT 21
#define BCUBE_REFUSED_SERVER_COUNT 22
#define BCUBE_REFUSED_NOT_NEIGHBOURS 23
#define BCUBE_REFUSED_FILL 26 /* tested between 2 and 3 */
#define BCUBE_REFUSED_SERVER_AGAIN 28 /* tested at a hop after 8 to 11, and after 23 */
#define BCUBE_REFUSED_SWITCH_AGAIN 29 /* tested right after 28 */
#define BCUBE_REFUSED_SUMMARY 30 /* tested right after 6 */

/* What a refusal's number means, as a sentence. */
static inline const char *bcube_refusal_text(uint64_t number) {
    switch (number) {
    case BCUBE_NOT_REFUSED: return "Nothing is refused.";
    case BCUBE_REFUSED_PORTS: return "n, the ports of a switch, is not among 2 to 64.";
    case BCUBE_REFUSED_LEVELS: return "k, the highest level, is above 3.";
    case BCUBE_REFUSED_SERVERS: return "The room would have more than 4,096 servers.";
    case BCUBE_REFUSED_ADDRESS: return "A server is not below the number of servers.";
    case BCUBE_REFUSED_SAME_ENDS: return "The source is the destination, or the server whose parent is asked for.";
    case BCUBE_REFUSED_TABLE: return "The failed-link table is not one byte a server, or has a bit above bit k set.";
    case BCUBE_REFUSED_LIST:
        return "A single array is not 8 bytes; or a list is not whole arrays of 8 bytes, or has more than k+1, or none to check.";
    case BCUBE_REFUSED_POSITION: return "A path byte's level is above k.";
    case BCUBE_REFUSED_VALUE: return "A path byte's value is not below the bound of its digit.";
    case BCUBE_REFUSED_NO_CHANGE: return "A hop changes nothing.";
    case BCUBE_REFUSED_FAILED_LINK: return "A hop crosses a failed link, of its sender or of its receiver.";
    case BCUBE_REFUSED_NOT_ARRIVED: return "Eight hops, and not arrived.";
    case BCUBE_REFUSED_AFTER_ARRIVAL: return "A byte after the arrival is not zero.";
    case BCUBE_REFUSED_NOT_PARALLEL: return "Two routes share a switch, or a server that is not an end.";
    case BCUBE_REFUSED_NO_ROUTE: return "There is no route to give.";
    case BCUBE_REFUSED_NEIGHBOUR_TABLE: return "The neighbour table is not 2,048 bytes.";
    case BCUBE_REFUSED_HOP_INDEX: return "The next hop index is 8 or more, away from the destination.";
    case BCUBE_REFUSED_UNAVAILABLE: return "The next neighbour is not available.";
    case BCUBE_REFUSED_LEVEL: return "A level is above k, or a tree is.";
    case BCUBE_REFUSED_DIGIT:
        return "A digit, or a port, is not below its bound; or a place above k is not zero; or the level has no such switch.";
    case BCUBE_REFUSED_SERVER_COUNT: return "The servers to write are fewer than 2, or more than 9.";
    case BCUBE_REFUSED_NOT_NEIGHBOURS: return "Two servers in a row do not differ in exactly one digit.";
    case BCUBE_REFUSED_FILL: return "m, the fill of the room, is not among 2 to n.";
    case BCUBE_REFUSED_SERVER_AGAIN: return "A hop meets a server that is already on the route.";
    case BCUBE_REFUSED_SWITCH_AGAIN: return "A hop uses a switch that is already on the route.";
    case BCUBE_REFUSED_SUMMARY:
        return "The summary is not one byte a switch, or an entry of it is not what the failed-link table counts.";
    default: return "There is no such refusal.";
    }
}

/* ---- the room, and the two forms of an answer: each is passed in registers, like plain numbers */

typedef struct {
    uint64_t number; /* n + 256 k + 65536 m; a call takes any number, and refuses what is no room */
} bcube_room;

typedef struct {
    uint64_t word; /* from the lowest byte: refusal, route, hop, 16 times the earlier route plus the earlier hop, and
                      the value in the high four bytes */
} bcube_answer;

typedef struct {
    uint64_t word; /* from the lowest byte: refusal, its hop, 1 if delivered, next index, next server (two bytes),
                      OutPort, and the path byte of the way back: 64 times the hop's level plus its old value */
    uint64_t mac;  /* the MAC as stored, its first byte highest (bits 40 to 47) */
} bcube_stepped;

/* Why the call is refused: one of the numbers above, or BCUBE_NOT_REFUSED. */
static inline uint32_t bcube_refusal(bcube_answer answer) { return (uint32_t)(answer.word & 255); }

/* The route at which a refusal arose, counted from 1; 0 where the refusal has none, or where there is none. */
static inline uint32_t bcube_route(bcube_answer answer) { return (uint32_t)(answer.word >> 8 & 255); }

/* The hop at which a refusal arose, counted from 1; 0 where the refusal has none, or where there is none. (What
 * bcube_hop_of answers is read by bcube_hop_next, bcube_hop_level, bcube_hop_old and bcube_hop_back.) */
static inline uint32_t bcube_hop(bcube_answer answer) { return (uint32_t)(answer.word >> 16 & 255); }

/* The earlier route that a refusal names, counted from 1: for 15 the first of the pair; else 0. */
static inline uint32_t bcube_earlier_route(bcube_answer answer) { return (uint32_t)(answer.word >> 28 & 15); }

/* The earlier hop that a refusal names, counted from 1: for 15 the first route's, for 29 the same route's, and so for
 * 28, where 0 is the source; else 0. (So ask bcube_refusal first.) */
static inline uint32_t bcube_earlier_hop(bcube_answer answer) { return (uint32_t)(answer.word >> 24 & 15); }

/* The answer as a number; 0 on a refusal. */
static inline uint32_t bcube_value(bcube_answer answer) { return (uint32_t)(answer.word >> 32); }

/* The full room of n ports a switch and levels 0 to k, as in version 2: its fill m is n. It takes any two numbers: one
 * above 255 counts as 255, which every call refuses like it. Cost: constant; 0 bytes of stack. */
BCUBE_RESULT bcube_room bcube_room_of(uint64_t n, uint64_t k);

/* The room of n ports a switch, levels 0 to k and fill m; the full one where m is n. It takes any three numbers, each
 * as bcube_room_of does. Cost: constant; 0 bytes of stack. */
BCUBE_RESULT bcube_room bcube_filled_room(uint64_t n, uint64_t k, uint64_t m);

/* ---- shapes, addresses and switches */

/* Whether there is such a room. Refuses 1, 2, 26, 3. Value: 0. Cost: constant; 0 bytes of stack. */
BCUBE_RESULT bcube_answer bcube_shape(bcube_room room);

/* How many servers the room has. Refuses 1, 2, 26, 3. Value: N. Cost: constant; 0 bytes of stack. */
BCUBE_RESULT bcube_answer bcube_servers(bcube_room room);

/* What a digit at this level is below: m at level k, n at every other. The level's switches have as many ports in
 * use. Refuses 1, 2, 26, 3, 20. Value: that bound. Cost: constant; 64 bytes of stack. */
BCUBE_RESULT bcube_answer bcube_bound(bcube_room room, uint64_t level);

/* How many switches a level has: their numbers are those below it. Refuses 1, 2, 26, 3, 20. Value: that number.
 * Cost: constant; 64 bytes of stack. */
BCUBE_RESULT bcube_answer bcube_switches(bcube_room room, uint64_t level);

/* The digits of a server. Refuses 1, 2, 26, 3, 4. Value: 0. Written: digits[i] is digit i, so the lowest comes
 * first; the places above k hold zero. Cost: constant; 64 bytes of stack. */
BCUBE_BUFFER(3) BCUBE_RESULT bcube_answer bcube_digits(bcube_room room, uint64_t server, uint64_t digits[4]);

/* One digit of a server. Refuses 1, 2, 26, 3, 4, 20. Value: the digit at the level.
 * Cost: constant; 64 bytes of stack. */
BCUBE_RESULT bcube_answer bcube_digit(bcube_room room, uint64_t server, uint64_t level);

/* The server with these digits, d0 being digit 0; those at places above k have to be zero.
 * Refuses 1, 2, 26, 3, 21. Value: its address. Cost: constant; 64 bytes of stack. */
BCUBE_RESULT bcube_answer bcube_address(bcube_room room, uint64_t d0, uint64_t d1, uint64_t d2, uint64_t d3);

/* The switch that a server's link at this level leads to. Refuses 1, 2, 26, 3, 4, 20. Value: the switch's
 * number; together with the level it names the switch. Cost: constant; 64 bytes of stack. */
BCUBE_RESULT bcube_answer bcube_switch(bcube_room room, uint64_t server, uint64_t level);

/* The server at a port of a switch: the one whose digit at the level is the port, and whose switch there has this
 * number. Refuses 1, 2, 26, 3, 20, 21 (the level has no switch of that number, or the switch no server at that
 * port). Value: its address. Cost: constant; 64 bytes of stack. */
BCUBE_RESULT bcube_answer bcube_server_at(bcube_room room, uint64_t level, uint64_t number, uint64_t port);

/* The server whose digit at the level is this value, and whose other digits are this server's; where the
 * value is the server's own digit, that is the server itself. Refuses 1, 2, 26, 3, 4, 20, 21 (the value is not
 * below the bound). Value: its address. Cost: constant; 64 bytes of stack. */
BCUBE_RESULT bcube_answer bcube_neighbour(bcube_room room, uint64_t server, uint64_t level, uint64_t value);

/* Whether two servers are neighbours: they differ in one digit only. Refuses 1, 2, 26, 3, 4. Value: the level at
 * which they differ, plus 1; 0 where they are no neighbours (a server is not its own).
 * Cost: constant; 128 bytes of stack. */
BCUBE_RESULT bcube_answer bcube_between(bcube_room room, uint64_t one, uint64_t other);

/* ---- the failed-link table (of N bytes, as above) */

/* Whether a link is marked as failed. Refuses 1, 2, 26, 3, 4, 20, 6. Value: 1 if it is, else 0.
 * Cost: the table; 64 bytes of stack. */
BCUBE_RESULT bcube_answer bcube_failed_link(bcube_room room, uint64_t server, uint64_t level, const uint8_t *table,
                                            size_t table_len);

/* ---- the failed-link table and its summary (of one byte a server and one byte a switch, as above) */

/* Marks a link as failed. Refuses 1, 2, 26, 3, 4, 20, 6, 30 (the length of the summary, or the entry of the link's
 * switch). Value: 0. The one bit of the table is set, and the entry of its switch is one more; no other bit and no
 * other entry changes. Marking a marked link changes nothing.
 * Cost: the table, and the servers of one switch; 256 bytes of stack. */
BCUBE_RESULT bcube_answer bcube_mark(bcube_room room, uint64_t server, uint64_t level, uint8_t *table, size_t table_len,
                                     uint8_t *summary, size_t summary_len);

/* Clears a link of its mark. Refuses 1, 2, 26, 3, 4, 20, 6, 30 (the length of the summary, or the entry of the link's
 * switch). Value: 0. The one bit of the table is reset, and the entry of its switch is one less; no other bit and no
 * other entry changes. Clearing a link that is not marked changes nothing.
 * Cost: the table, and the servers of one switch; 256 bytes of stack. */
BCUBE_RESULT bcube_answer bcube_clear(bcube_room room, uint64_t server, uint64_t level, uint8_t *table,
                                      size_t table_len, uint8_t *summary, size_t summary_len);

/* Marks all links of a server, levels 0 to k, as failed: the server is dead. Refuses 1, 2, 26, 3, 4, 6, 30 (the length
 * of the summary, or the entry of one of the server's k+1 switches). Value: 0. The server's byte of the table and those
 * entries are as after marking each link; no other byte and no other entry changes.
 * Cost: the table, and the servers of k+1 switches; 256 bytes of stack. */
BCUBE_RESULT bcube_answer bcube_mark_all(bcube_room room, uint64_t server, uint8_t *table, size_t table_len,
                                         uint8_t *summary, size_t summary_len);

/* Clears all links of a server of their marks. Refuses 1, 2, 26, 3, 4, 6, 30 (as bcube_mark_all). Value: 0. The
 * server's byte of the table and those entries are as after clearing each link; no other byte and no other entry
 * changes. Cost: the table, and the servers of k+1 switches; 256 bytes of stack. */
BCUBE_RESULT bcube_answer bcube_clear_all(bcube_room room, uint64_t server, uint8_t *table, size_t table_len,
                                          uint8_t *summary, size_t summary_len);

/* The first dead switch: the first, by level and then by number, all of whose servers have their link to it failed, so
 * that its entry is the bound of its level. Refuses 1, 2, 26, 3, 6, 30 (the length of the summary, or any entry).
 * Value: whether there is one, and which; read it by the three functions below.
 * Cost: the table, and all links; 128 bytes of stack. */
BCUBE_RESULT bcube_answer bcube_dead_switch(bcube_room room, const uint8_t *table, size_t table_len,
                                            const uint8_t *summary, size_t summary_len);

/* 1 if there is a dead switch, else 0; 0 on a refusal. Ask this first: level 0 and number 0 are a switch too. */
static inline int bcube_dead_found(bcube_answer answer) { return (int)(bcube_value(answer) >> 24 & 1); }

/* The level of the first dead switch; 0 where there is none, or on a refusal. */
static inline uint32_t bcube_dead_level(bcube_answer answer) { return bcube_value(answer) >> 16 & 255; }

/* The number of the first dead switch at its level; 0 where there is none, or on a refusal. */
static inline uint32_t bcube_dead_number(bcube_answer answer) { return bcube_value(answer) & 65535; }

/* Counts the summary of a table afresh. Refuses 1, 2, 26, 3, 6, 30 (the length of the summary). Value: 0. Written:
 * every entry of the summary, whatever it held. Cost: the table, and all links; 128 bytes of stack. */
BCUBE_RESULT bcube_answer bcube_summarize(bcube_room room, const uint8_t *table, size_t table_len, uint8_t *summary,
                                          size_t summary_len);

/* ---- path bytes */

/* The path byte of a hop at this level to this value. Refuses 1, 2, 26, 3, 20, 21 (the value is not below the
 * bound). Value: the byte. Cost: constant; 64 bytes of stack. */
BCUBE_RESULT bcube_answer bcube_path_byte(bcube_room room, uint64_t level, uint64_t value);

/* The level and the value of a path byte. Refuses 1, 2, 26, 3; then, at route 1 and hop 1, 8 (a number above 255
 * too) and 9. Value: both; read it by the two functions below.
 * Cost: constant; 64 bytes of stack. */
BCUBE_RESULT bcube_answer bcube_path_byte_parts(bcube_room room, uint64_t byte);

/* The level of those parts; 0 on a refusal. */
static inline uint32_t bcube_byte_level(bcube_answer parts) { return bcube_value(parts) >> 8; }

/* The value of those parts; 0 on a refusal. */
static inline uint32_t bcube_byte_value(bcube_answer parts) { return bcube_value(parts) & 255; }

/* The hop by a path byte from a server: the server that it leads to, its level, and its old value, the one that it
 * replaces, which is the digit of the server hopped from at that level. It looks at no failed links.
 * Refuses 1, 2, 26, 3, 4; then, at route 1 and hop 1, 8 (a number above 255 too), 9, 10. Value: all three; read it by
 * the four functions below. Cost: constant; 64 bytes of stack. */
BCUBE_RESULT bcube_answer bcube_hop_of(bcube_room room, uint64_t server, uint64_t byte);

/* The server to which that hop leads; 0 on a refusal. */
static inline uint32_t bcube_hop_next(bcube_answer hop) { return bcube_value(hop) & 65535; }

/* Its level; 0 on a refusal. */
static inline uint32_t bcube_hop_level(bcube_answer hop) { return bcube_value(hop) >> 22 & 3; }

/* Its old value; 0 on a refusal. */
static inline uint32_t bcube_hop_old(bcube_answer hop) { return bcube_value(hop) >> 16 & 63; }

/* The path byte of its way back, 64 times the level plus the old value; 0 on a refusal. (It may be 0 too where nothing
 * is refused: ask bcube_refusal.) */
static inline uint8_t bcube_hop_back(bcube_answer hop) { return (uint8_t)(bcube_value(hop) >> 16 & 255); }

/* Reads one array as a route from source to destination. It looks at no failed links.
 * Refuses 1, 2, 26, 3, 4 (either end), 5, 7; then hop by hop 8, 9, 10, 28, 29; 13 after the eighth hop; 14 on the
 * arrival. Value: how many servers the route has, its hops + 1. Written: those servers in order, the
 * source first; zeros after the last. Cost: constant; 448 bytes of stack. */
BCUBE_BUFFER(6) BCUBE_RESULT bcube_answer bcube_read(bcube_room room, uint64_t source, uint64_t destination,
                                                     const uint8_t *path, size_t path_len, uint64_t servers[9]);

/* Writes a route as path bytes: the servers in order, the source first, servers_len of them (2 to 9).
 * Refuses 1, 2, 26, 3, 22, 4 (any of them), 5 (the first is the last); then hop by hop 23, 28, 29.
 * Value: 0. Written: the 8 path bytes, zeros after the last hop. Cost: constant; 256 bytes of stack. */
BCUBE_BUFFER(4) BCUBE_RESULT bcube_answer bcube_write(bcube_room room, const uint64_t *servers, size_t servers_len,
                                                      uint8_t path[8]);

/* The same route backwards. `path` is a route from source to destination, and refusals are those of
 * bcube_read. Value: 0. Written: the path bytes of the route from destination to source that meets the same
 * servers: the bytes of the way back of its hops, the last hop's first. Twice gives the first bytes again.
 * Cost: constant; 448 bytes of stack. */
BCUBE_BUFFER(6) BCUBE_RESULT bcube_answer bcube_reverse(bcube_room room, uint64_t source, uint64_t destination,
                                                        const uint8_t *path, size_t path_len, uint8_t reversed[8]);

/* Checks a list of 1 to k+1 routes from source to destination: each reads over live links, and every two are
 * parallel. Refuses 1, 2, 26, 3, 4 (either end), 5, 6, 7 (an empty list too); then route by route, hop by hop 8, 9, 10,
 * 11, 28, 29, with 13 after the eighth hop and 14 on the arrival; then 15, by first, then by second route, which names
 * the two routes and, of each, its hop at their first meeting. Value: 0. Cost: the table; 1856 bytes of stack. */
BCUBE_RESULT bcube_answer bcube_check(bcube_room room, uint64_t source, uint64_t destination, const uint8_t *table,
                                      size_t table_len, const uint8_t *list, size_t list_len);

/* ---- routes */

/* The built routes of a room in which all links are live: k+1 parallel routes.
 * Refuses 1, 2, 26, 3, 4 (either end), 5. Value: how many arrays are written, k+1. Written: the arrays, that of
 * slot k first; zeros after them. Cost: constant; 448 bytes of stack. */
BCUBE_BUFFER(4) BCUBE_RESULT bcube_answer bcube_build(bcube_room room, uint64_t source, uint64_t destination,
                                                      uint8_t routes[32]);

/* The least route over live links: the fewest hops, and among equals, hop by hop from the source, the higher
 * level first, then the lower value. Refuses 1, 2, 26, 3, 4 (either end), 5, 6. Value: its hops; 0 where no
 * route of eight hops or fewer crosses only live links, which is no refusal. Written: its path bytes; zeros
 * where there is none. (The array of a route may be all zeros too: ask the value.)
 * Cost: the table and a search; 41216 bytes of stack. */
BCUBE_BUFFER(6) BCUBE_RESULT bcube_answer bcube_find(bcube_room room, uint64_t source, uint64_t destination,
                                                     const uint8_t *table, size_t table_len, uint8_t path[8]);

/* Parallel routes around the failed links. Slot after slot, from k down: the built route stays if all its hops
 * are live; if not, its place is taken by the least route, in the order of bcube_find, over live links that shares
 * no switch and no middle server with the routes already settled or with the built routes of the lower
 * slots. Where there is none of eight hops or fewer, the slot gets nothing.
 * Refuses 1, 2, 26, 3, 4 (either end), 5, 6; and last 16, when no route at all of eight hops or fewer crosses
 * only live links. Value: how many arrays are written, 1 to k+1. Written: the arrays in slot order, closed
 * up; zeros after them.
 * Cost: the table, and a search for each broken route; 45824 bytes of stack. */
BCUBE_BUFFER(6) BCUBE_RESULT bcube_answer bcube_select(bcube_room room, uint64_t source, uint64_t destination,
                                                       const uint8_t *table, size_t table_len, uint8_t routes[32]);

/* ---- picking */

/* Picks one route: the first usable one of the fresh list, else the first usable one of the kept list. Usable
 * means that bcube_check would take it as a list of one. Either list may be empty. Refuses 1, 2, 26, 3, 4 (either
 * end), 5, 6, 7 (either list; an empty list is allowed); and last 16, when no route of either list is usable.
 * Value: which route it is; read it by the three functions below.
 * Cost: the table; 512 bytes of stack. */
BCUBE_RESULT bcube_answer bcube_pick(bcube_room room, uint64_t source, uint64_t destination, const uint8_t *table,
                                     size_t table_len, const uint8_t *fresh, size_t fresh_len, const uint8_t *kept,
                                     size_t kept_len);

#define BCUBE_FRESH 1 /* the picked route is in the fresh list */
#define BCUBE_KEPT 2  /* the picked route is in the kept list */

/* The list of the picked route: BCUBE_FRESH or BCUBE_KEPT; 0 on a refusal. */
static inline uint32_t bcube_pick_list(bcube_answer answer) { return bcube_value(answer) >> 8; }

/* The place of the picked route in its list, counted from 1; 0 on a refusal. */
static inline uint32_t bcube_pick_route(bcube_answer answer) { return bcube_value(answer) & 255; }

/* Where the eight bytes of the picked route begin in its list, 8 * (route - 1). On a refusal it says nothing:
 * ask bcube_refusal first. */
static inline size_t bcube_pick_offset(bcube_answer answer) {
    uint32_t route = bcube_pick_route(answer);
    return route == 0 ? 0 : (size_t)BCUBE_PATH_BYTES * (route - 1);
}

/* ---- one forwarding step
 *
 * How a driver uses it. A packet carries its destination, its eight path bytes and its next hop index
 * (NHI), which the sender sets to 0. Each server keeps its own neighbour table and the room. At each server:
 *
 *     bcube_stepped step = bcube_step(room, here, destination, index, path, 8, neighbours, 2048);
 *     if (bcube_step_refusal(step) != BCUBE_NOT_REFUSED)  drop the packet, and report the refusal
 *     else if (bcube_step_delivered(step)) hand it up
 *     else {
 *         store bcube_step_index(step) as the packet's index,
 *         for a trace, note bcube_step_level(step) and bcube_step_old(step), or the two as bcube_step_back(step),
 *         send it out of port bcube_step_port(step) to the address of which
 *         bcube_mac_byte(step.mac, 0) .. bcube_mac_byte(step.mac, 5) are the six bytes
 *     }
 *
 * here is this server, destination the packet's; index, its next hop index, says which path byte names the
 * next hop; path are the packet's path bytes, and neighbours this server's neighbour table: 256 entries of 8 bytes,
 * indexed by path byte, each six bytes MAC, one OutPort, one StatusFlag. A flag of 1 is available, and every
 * other value is not. An entry whose byte leads to no other server is never looked at, and may hold anything.
 *
 * The step also says what its hop leaves behind: the level, and the old value, which is the digit of here at that
 * level; both in one byte, the path byte of the way back. Collected in turn, trace[index] = bcube_step_back(step), these bytes are
 * the packet's trace. Once a packet that came by a route is delivered, after h steps, trace[h-1] .. trace[0] and then
 * zeros are the array that bcube_reverse writes for its path.
 *
 * Refuses 1, 2, 26, 3, 4 (here or the destination), 17, 7, 18, 8, 9, 10, 19. Between 7 and 18 it is asked whether the
 * packet has arrived, and an arrived packet is delivered with any index. On a refusal all but the refusal and
 * its hop is 0. At a delivery all but the 1 that says so is 0. A stored MAC may be 0 too, and a byte of the way back.
 * Cost: constant; 64 bytes of stack. */
BCUBE_RESULT bcube_stepped bcube_step(bcube_room room, uint64_t here, uint64_t destination, uint64_t index,
                                      const uint8_t *path, size_t path_len, const uint8_t *neighbours,
                                      size_t neighbours_len);

/* Why the step is refused: one of the numbers above, or BCUBE_NOT_REFUSED. */
static inline uint32_t bcube_step_refusal(bcube_stepped step) { return (uint32_t)(step.word & 255); }

/* The hop at which a refusal arose, counted from 1: the index + 1 for 8, 9, 10 and 19, else 0. */
static inline uint32_t bcube_step_hop(bcube_stepped step) { return (uint32_t)(step.word >> 8 & 255); }

/* The route at which a refusal arose: 1 where it has a hop, else 0. */
static inline uint32_t bcube_step_route(bcube_stepped step) { return bcube_step_hop(step) != 0 ? 1 : 0; }

/* 1 if this server is the packet's destination and nothing was refused, else 0. */
static inline int bcube_step_delivered(bcube_stepped step) { return (int)(step.word >> 16 & 255); }

/* The index that the packet carries on: this one + 1. */
static inline uint32_t bcube_step_index(bcube_stepped step) { return (uint32_t)(step.word >> 24 & 255); }

/* The server to which the packet goes next. */
static inline uint32_t bcube_step_next(bcube_stepped step) { return (uint32_t)(step.word >> 32 & 65535); }

/* The OutPort, as stored in the table. */
static inline uint8_t bcube_step_port(bcube_stepped step) { return (uint8_t)(step.word >> 48 & 255); }

/* The level of the hop; 0 at a delivery and on a refusal. */
static inline uint32_t bcube_step_level(bcube_stepped step) { return (uint32_t)(step.word >> 62); }

/* The old value of the hop, the one that it replaces: the digit of here at the level; 0 at a delivery and on a
 * refusal. */
static inline uint32_t bcube_step_old(bcube_stepped step) { return (uint32_t)(step.word >> 56 & 63); }

/* The path byte of the way back, 64 times the level plus the old value, as a trace collects it; 0 at a delivery and on
 * a refusal. */
static inline uint8_t bcube_step_back(bcube_stepped step) { return (uint8_t)(step.word >> 56); }

/* Byte i of a MAC, 0 to 5, in the order in which the table stores it; 0 where i is above 5. */
static inline uint8_t bcube_mac_byte(uint64_t mac, uint64_t i) {
    return (uint8_t)(i > 5 ? 0 : mac >> (40 - 8 * i) & 255);
}

/* ---- spanning trees
 *
 * Where a server hangs in tree l: if it has the source's own digit l, its parent is the server with digit l lowered by
 * one; else with digit j lowered by one, level j being the last of l, l+1, .. k, 0, .. l-1 at which its digit is not the
 * source's. Below 0 comes the greatest value of the digit, so m - 1 at level k, and n - 1 at every other. */

/* The parent of a server in a tree of a source: the server that hands it the file. Refuses 1, 2, 26, 3, 4 (either
 * server), 20 (the tree is above k), 5 (the server is the source, which has no parent). Value: the parent's address.
 * Cost: constant; 128 bytes of stack. */
BCUBE_RESULT bcube_answer bcube_parent(bcube_room room, uint64_t source, uint64_t tree, uint64_t server);

/* A whole tree of a source. Refuses 1, 2, 26, 3, 4, 20 (the tree is above k). Value: how many servers the room has, N.
 * Written: parents[x] is the parent of server x, and BCUBE_NO_PARENT for the source; zeros after server N - 1, the last.
 * Cost: a tree; 256 bytes of stack. */
BCUBE_BUFFER(4) BCUBE_RESULT bcube_answer bcube_tree(bcube_room room, uint64_t source, uint64_t tree,
                                                     uint32_t parents[4096]);

#ifdef __cplusplus
}
#endif

#endif
