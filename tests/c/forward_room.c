/* Forwards packets over whole rooms, full and half-filled, with the proved step, as a driver would, and holds every
 * step to the plain step of plain.c.
 *
 * For each room links are failed by the library's marks, with a summary beside the table: none, all of a server, all
 * of a switch, and one in so many. The table has to be as marked, the summary carried along as counted afresh, and the
 * first dead switch the one that this program finds. Under each of these tables neighbour tables for every server are
 * made from it, with anything in the entries that name no neighbour; then for every pair of different servers
 * (in a large room, for every server and one other) every built route is forwarded. A route that crosses no failed
 * link must be delivered after exactly its hops; any other must be refused with 19 at its first hop over one.
 * Then the library selects routes for the pair (in a large room, for one pair in eight) under the failed-link table,
 * and every selected route must be delivered after exactly its hops; where it has none to give, no built route may be
 * unbroken. Each step must say the level of its hop and the value that the hop replaces, and a hop by these two from
 * the next server must lead back; each packet collects them as its trace, and when it is delivered the trace read
 * backwards must be what bcube_reverse writes for its path. Then paths are damaged, one byte at a time, or by a way out
 * and back put in, and every step of each must be as the plain step says; a hop to a vacant port of level k, m to n - 1,
 * must be refused with 9. Where a damaged path is delivered, the trace is held to the reversed path; or, if the path is
 * no route and its reversal is refused with 28 or 29, to the two hops that the refusal names: by both the packet came to
 * the same server, or by both through the same switch. Last come steps with any numbers and lengths. Prints what was
 * done; status 1 if anything was not as it must be. */
#include "plain.h"

#include <inttypes.h>
#include <stdarg.h>
#include <stdio.h>
#include <stdlib.h>
#include <string.h>

/* ---- a room, its failed links and its neighbour tables */

static uint32_t n, k, m, servers;
static bcube_room room;
static uint8_t failed[BCUBE_MOST_SERVERS];   /* bit l: that server's link at level l */
static uint8_t summary[BCUBE_MOST_SWITCHES]; /* of it */
static size_t switches;                      /* of all levels */
static uint8_t (*tables)[BCUBE_NEIGHBOUR_TABLE_BYTES];
enum { LARGE = 256 }; /* in rooms of more servers not every pair is taken */

/* how many values a digit at this level has */
static uint32_t bound(uint32_t level) { return level == k ? m : n; }

static uint32_t digit_of(uint32_t address, uint32_t level) {
    while (level-- > 0) address /= n;
    return address % n;
}

static uint32_t power(uint32_t base, uint32_t exponent) {
    uint32_t result = 1;
    while (exponent-- > 0) result *= base;
    return result;
}

static uint32_t with_digit(uint32_t address, uint32_t level, uint32_t value) {
    uint32_t weight = power(n, level);
    return address - digit_of(address, level) * weight + value * weight;
}

/* ---- comparing */

static unsigned long failures;

/* what was asked, then what was given and what was wanted */
__attribute__((format(printf, 5, 6)))
static void wrong(bcube_room of, uint64_t here, uint64_t destination, uint64_t index, const char *given, ...) {
    if (failures++ >= 20) return;
    printf("wrong: shape (%" PRIu64 ",%" PRIu64 ",%" PRIu64 "), at %" PRIu64 " for %" PRIu64 ", index %" PRIu64 ": ",
           of.number & 255, of.number >> 8 & 255, of.number >> 16, here, destination, index);
    va_list words;
    va_start(words, given);
    vprintf(given, words);
    va_end(words);
    printf("\n");
}

static unsigned long steps;

/* One step of the library, held to the plain one; gives the library's. */
static bcube_stepped held_step(bcube_room of, uint64_t here, uint64_t destination, uint64_t index, const uint8_t *path,
                               size_t path_len, const uint8_t *table, size_t table_len) {
    bcube_stepped plain = plain_step(of, here, destination, index, path, path_len, table, table_len);
    bcube_stepped step = bcube_step(of, here, destination, index, path, path_len, table, table_len);
    steps++;
    if (step.word == plain.word && step.mac == plain.mac) return step;
    wrong(of, here, destination, index,
          "path of %zu, table of %zu: a step of %016" PRIx64 " %012" PRIx64 ", wanted %016" PRIx64 " %012" PRIx64, path_len,
          table_len, step.word, step.mac, plain.word, plain.mac);
    return step;
}

/* ---- numbers that repeat from run to run */

static uint64_t seed = 1;

static uint32_t any(uint32_t below) {
    seed = seed * 6364136223846793005u + 1442695040888963407u;
    return (uint32_t)((seed >> 33) % below);
}

/* ---- neighbour tables from the failed links */

static int live(uint32_t from, uint32_t to, uint32_t level) {
    return !(failed[from] >> level & 1) && !(failed[to] >> level & 1);
}

/* an entry that names no neighbour holds anything, and says available as often as not */
static void make_tables(void) {
    static const uint8_t closed[] = {0, 2, 3, 128, 255};
    for (uint32_t a = 0; a < servers; a++)
        for (uint32_t byte = 0; byte < 256; byte++) {
            uint8_t *entry = tables[a] + 8 * byte;
            uint32_t level = byte / 64, value = byte % 64;
            for (int i = 0; i < 8; i++) entry[i] = (uint8_t)any(256);
            if (level <= k && value < bound(level) && digit_of(a, level) != value)
                entry[7] = live(a, with_digit(a, level, value), level) ? 1 : closed[any(5)];
            else if (any(2))
                entry[7] = 1;
        }
}

/* ---- built routes */

struct route {
    uint32_t hops, met[10];
    uint8_t path[8];
};

static void hop(struct route *r, uint32_t level, uint32_t value) {
    r->path[r->hops] = (uint8_t)(64 * level + value);
    r->met[r->hops + 1] = with_digit(r->met[r->hops], level, value);
    r->hops++;
}

static void correct(struct route *r, uint32_t destination, uint32_t level) {
    uint32_t value = digit_of(destination, level);
    if (digit_of(r->met[r->hops], level) != value) hop(r, level, value);
}

static struct route built(uint32_t source, uint32_t destination, uint32_t slot) {
    struct route r;
    memset(&r, 0, sizeof r);
    r.met[0] = source;
    if (digit_of(source, slot) == digit_of(destination, slot)) {
        hop(&r, slot, (digit_of(source, slot) + 1) % bound(slot));
        for (uint32_t j = 1; j <= k + 1; j++) correct(&r, destination, (slot + (k + 1) - j) % (k + 1));
    } else {
        for (uint32_t j = 0; j <= k; j++) correct(&r, destination, (slot + (k + 1) - j) % (k + 1));
    }
    return r;
}

/* ---- selected routes, by the reading rule: up to the first arrival; hops 0 if there is none */

static struct route taken(uint32_t source, uint32_t destination, const uint8_t *path) {
    struct route r;
    memset(&r, 0, sizeof r);
    r.met[0] = source;
    while (r.hops < 8 && r.met[r.hops] != destination) hop(&r, path[r.hops] / 64, path[r.hops] % 64);
    if (r.met[r.hops] != destination || memcmp(r.path, path, 8) != 0) r.hops = 0;
    return r;
}

/* ---- forwarding */

static unsigned long delivered, broken, selected, unreached, damaged, vacant, traced, led_back;
static unsigned long came_again[2]; /* packets that came to a server again, and by a switch */

/* the first hop over a failed link, counted from 1; 0 if there is none */
static uint32_t first_failed(const struct route *r) {
    for (uint32_t i = 0; i < r->hops; i++)
        if (!live(r->met[i], r->met[i + 1], r->path[i] / 64)) return i + 1;
    return 0;
}

/* what the steps of a packet leave behind: of each the byte of its way back, and the server that it led to, after the
 * source */
struct trace {
    uint32_t hops, met[9];
    uint8_t back[8];
};

/* one more step, from here: what it says of its hop has to be so, and a hop by that has to lead back */
static void note(struct trace *trace, uint32_t here, uint8_t byte, bcube_stepped s) {
    uint32_t level = bcube_step_level(s), old = bcube_step_old(s), next = bcube_step_next(s);
    if (level != byte / 64u || old != digit_of(here, level) || bcube_step_back(s) != 64 * level + old)
        wrong(room, here, next, trace->hops, "%016" PRIx64 ", level %" PRIu32 ", old value %" PRIu32 "; wanted %d and %" PRIu32,
              s.word, level, old, byte / 64, digit_of(here, byte / 64));
    bcube_answer back = bcube_hop_of(room, next, bcube_step_back(s)), on = bcube_hop_of(room, here, byte);
    led_back++;
    if (bcube_refusal(back) != 0 || bcube_hop_next(back) != here || bcube_hop_back(back) != byte)
        wrong(room, next, here, trace->hops, "a hop back of %016" PRIx64, back.word);
    if (bcube_refusal(on) != 0 || bcube_hop_next(on) != next || bcube_hop_level(on) != level || bcube_hop_old(on) != old)
        wrong(room, here, next, trace->hops, "a hop of %016" PRIx64 " and a step of %016" PRIx64, on.word, s.word);
    if (trace->hops < 8) trace->back[trace->hops] = bcube_step_back(s), trace->met[trace->hops + 1] = next;
    trace->hops++;
}

/* whether two hops of a packet, counted from 1, went by the same switch */
static int same_switch(const struct trace *trace, uint32_t one, uint32_t other) {
    uint32_t level = trace->back[one - 1] / 64;
    if (trace->back[other - 1] / 64u != level) return 0;
    return with_digit(trace->met[one], level, 0) == with_digit(trace->met[other], level, 0);
}

/* a delivered packet whose path is no route: bytes come after the arrival, or by the two hops that are named it came to
 * the same server, or if not by the same switch */
static void held_again(const struct trace *trace, uint32_t destination, bcube_answer refused) {
    uint32_t why = bcube_refusal(refused), hop = bcube_hop(refused), earlier = bcube_earlier_hop(refused);
    int named = hop <= trace->hops && earlier < hop && bcube_route(refused) == 1 && bcube_earlier_route(refused) == 0, so = 0;
    if (why == BCUBE_REFUSED_AFTER_ARRIVAL) so = hop > trace->hops && earlier == 0;
    if (why == BCUBE_REFUSED_SERVER_AGAIN && named) so = trace->met[hop] == trace->met[earlier];
    if (why == BCUBE_REFUSED_SWITCH_AGAIN && named && earlier > 0)
        so = trace->met[hop] != trace->met[earlier] && same_switch(trace, hop, earlier);
    if (!so)
        wrong(room, trace->met[0], destination, trace->hops, "delivered, and reversal refused by %016" PRIx64, refused.word);
    else if (why != BCUBE_REFUSED_AFTER_ARRIVAL)
        came_again[why == BCUBE_REFUSED_SWITCH_AGAIN]++;
}

/* the trace of a delivered packet, read backwards, against the reversed path; a path that is no route has none */
static void held_trace(const struct trace *trace, uint32_t source, uint32_t destination, const uint8_t *path, int is_route) {
    uint8_t turned[8] = {0}, reversed[8];
    bcube_answer answer = bcube_reverse(room, source, destination, path, 8, reversed);
    if (bcube_refusal(answer) != 0 && !is_route) {
        held_again(trace, destination, answer);
        return;
    }
    for (uint32_t i = 0; i < trace->hops && i < 8; i++) turned[i] = trace->back[trace->hops - 1 - i];
    traced++;
    if (bcube_refusal(answer) != 0 || trace->hops > 8 || memcmp(turned, reversed, 8) != 0)
        wrong(room, source, destination, trace->hops, "a trace that backwards is not the reversed path: %016" PRIx64,
              answer.word);
}

/* forwards a packet until it is delivered (1) or refused (0), either of which has to be as the route says */
static int forward(const struct route *r, uint32_t destination) {
    uint32_t first = first_failed(r), here = r->met[0], index = 0, count = 0;
    struct trace trace = {.met = {here}};
    for (;;) {
        bcube_stepped s = held_step(room, here, destination, index, r->path, 8, tables[here], BCUBE_NEIGHBOUR_TABLE_BYTES);
        if (bcube_step_refusal(s) != 0) {
            if (first == 0 || bcube_step_refusal(s) != 19 || bcube_step_hop(s) != first || count + 1 != first)
                wrong(room, here, destination, index, "refused %" PRIu32 " at hop %" PRIu32 ", wanted %d at hop %" PRIu32,
                      bcube_step_refusal(s), bcube_step_hop(s), first == 0 ? 0 : 19, first);
            return 0;
        }
        if (bcube_step_delivered(s)) {
            if (first != 0 || count != r->hops || here != destination)
                wrong(room, here, destination, index,
                      "delivered after %" PRIu32 " hops, wanted after %" PRIu32 " (first failed link at hop %" PRIu32 ")", count,
                      r->hops, first);
            held_trace(&trace, r->met[0], destination, r->path, 1);
            return 1;
        }
        note(&trace, here, r->path[index], s);
        count++;
        here = bcube_step_next(s);
        index = bcube_step_index(s);
        if (count > r->hops || here != r->met[count] || index != count) {
            wrong(room, here, destination, index, "next, after %" PRIu32 " of %" PRIu32 " hops; wanted server %" PRIu32, count,
                  r->hops, r->met[count]);
            return 0;
        }
    }
}

/* every route that the library selects for this pair; `unbroken` of its built routes cross no failed link */
static void forward_selected(uint32_t source, uint32_t destination, uint32_t unbroken) {
    uint8_t routes[BCUBE_LIST_BYTES];
    bcube_answer answer = bcube_select(room, source, destination, failed, servers, routes);
    uint32_t count = bcube_value(answer);
    if (bcube_refusal(answer) == BCUBE_REFUSED_NO_ROUTE && unbroken == 0) {
        unreached++;
        return;
    }
    if (bcube_refusal(answer) != BCUBE_NOT_REFUSED || count < unbroken || count < 1 || count > k + 1) {
        wrong(room, source, destination, 0, "selection refused %" PRIu32 ", %" PRIu32 " routes; wanted %" PRIu32 " to %" PRIu32,
              bcube_refusal(answer), count, unbroken > 1 ? unbroken : 1, k + 1);
        return;
    }
    for (uint32_t i = 0; i < count; i++) {
        struct route r = taken(source, destination, routes + 8 * i);
        if (r.hops == 0 || first_failed(&r) != 0 || !forward(&r, destination))
            wrong(room, source, destination, i, "selected route of %" PRIu32 " hops, first failed link at hop %" PRIu32
                  "; wanted a delivery over live links", r.hops, first_failed(&r));
        else
            selected++;
    }
}

/* whether a path byte names a port of level k at which a full room would have a server, and this one has none */
static int is_vacant(uint8_t byte) { return byte / 64 == k && byte % 64 >= m && byte % 64 < n; }

/* the step to a vacant port has to be refused as such */
static void refused_vacant(bcube_stepped s, uint32_t here, uint32_t destination, uint32_t index) {
    vacant++;
    if (bcube_step_refusal(s) != BCUBE_REFUSED_VALUE || bcube_step_hop(s) != index + 1)
        wrong(room, here, destination, index, "%016" PRIx64 " at a vacant port, wanted refusal 9", s.word);
}

/* Follows any path until it is refused or delivered, which it must be within nine steps. */
static void follow(const uint8_t *path, uint32_t source, uint32_t destination) {
    uint32_t here = source, index = 0;
    struct trace trace = {.met = {source}};
    for (int i = 0; i < 9; i++) {
        bcube_stepped s = held_step(room, here, destination, index, path, 8, tables[here], BCUBE_NEIGHBOUR_TABLE_BYTES);
        if (here != destination && index < 8 && is_vacant(path[index])) refused_vacant(s, here, destination, index);
        if (bcube_step_delivered(s)) held_trace(&trace, source, destination, path, 0);
        if (bcube_step_refusal(s) != 0 || bcube_step_delivered(s)) return;
        note(&trace, here, path[index], s);
        here = bcube_step_next(s);
        index = bcube_step_index(s);
    }
    wrong(room, here, destination, index, "under way after nine steps, wanted at most eight hops");
}

/* the path with a way out and back put in at one of its servers, if there is room for it */
static void detour(const struct route *r, uint32_t destination) {
    uint32_t at = any(r->hops), level = any(k + 1), own = digit_of(r->met[at], level);
    uint8_t path[8];
    if (r->hops > 6) return;
    memcpy(path, r->path, at);
    path[at] = (uint8_t)(64 * level + (own + 1 + any(bound(level) - 1)) % bound(level));
    path[at + 1] = (uint8_t)(64 * level + own);
    memcpy(path + at + 2, r->path + at, 6 - at);
    follow(path, r->met[0], destination);
    damaged++;
}

static void damage(const struct route *r, uint32_t destination) {
    uint8_t path[8];
    for (uint32_t i = 0; i < 8; i++) {
        memcpy(path, r->path, 8);
        path[i] = (uint8_t)(any(2) ? any(256) : 64 * k + any(n));
        follow(path, r->met[0], destination);
        damaged++;
    }
    detour(r, destination);
}

static void forward_pair(uint32_t source, uint32_t destination, int with_selected) {
    uint32_t unbroken = 0;
    for (uint32_t slot = 0; slot <= k; slot++) {
        struct route r = built(source, destination, slot);
        if (forward(&r, destination))
            unbroken++;
        else
            broken++;
        if (any(4) == 0) damage(&r, destination);
    }
    delivered += unbroken;
    if (with_selected) forward_selected(source, destination, unbroken);
}

/* to every other server; in a large room to one, and by selected routes one time in eight */
static void forward_from(uint32_t source) {
    if (servers > LARGE) {
        uint32_t destination = (source + 1 + any(servers - 1)) % servers;
        forward_pair(source, destination, any(8) == 0);
        return;
    }
    for (uint32_t d = 0; d < servers; d++)
        if (d != source) forward_pair(source, d, 1);
}

static void forward_all(void) {
    make_tables();
    for (uint32_t a = 0; a < servers; a++) forward_from(a);
}

/* ---- failing links, by the library's marks */

static uint8_t wanted[BCUBE_MOST_SERVERS]; /* the table as it has to be */
static unsigned long changes, named;

/* a mark or a clear, which nothing refuses */
static void changed(bcube_answer answer, uint32_t server, uint32_t level) {
    changes++;
    if (answer.word != 0) wrong(room, server, level, 0, "a change of a link refused: %016" PRIx64, answer.word);
}

static void mark(uint32_t server, uint32_t level) {
    wanted[server] |= (uint8_t)(1u << level);
    changed(bcube_mark(room, server, level, failed, servers, summary, switches), server, level);
}

static void clear(uint32_t server, uint32_t level) {
    wanted[server] &= (uint8_t)~(1u << level);
    changed(bcube_clear(room, server, level, failed, servers, summary, switches), server, level);
}

static void mark_all(uint32_t server) {
    wanted[server] = (uint8_t)(power(2, k + 1) - 1);
    changed(bcube_mark_all(room, server, failed, servers, summary, switches), server, 0);
}

static void clear_all(uint32_t server) {
    wanted[server] = 0;
    changed(bcube_clear_all(room, server, failed, servers, summary, switches), server, 0);
}

/* whether all servers that this one meets at a level, itself too, have their link there failed */
static int is_dead(uint32_t server, uint32_t level) {
    for (uint32_t value = 0; value < bound(level); value++)
        if (!(wanted[with_digit(server, level, value)] >> level & 1)) return 0;
    return 1;
}

/* the answer that names the first dead switch. The switches of a level are met in the order of their numbers by the
 * servers whose digit there is 0 */
static uint64_t first_dead(void) {
    for (uint32_t level = 0; level <= k; level++)
        for (uint32_t a = 0, number = 0; a < servers; a++) {
            if (digit_of(a, level) != 0) continue;
            if (is_dead(a, level)) return (UINT64_C(1) << 24 | level << 16 | number) << 32;
            number++;
        }
    return 0;
}

/* the table and the summary after marks and clears, and the switch that they name */
static void held_marks(void) {
    static uint8_t counted[BCUBE_MOST_SWITCHES];
    if (memcmp(failed, wanted, servers) != 0) wrong(room, 0, 0, 0, "a table that is not as marked");
    bcube_answer fresh = bcube_summarize(room, failed, servers, counted, switches);
    if (fresh.word != 0 || memcmp(counted, summary, switches) != 0)
        wrong(room, 0, 0, 0, "%016" PRIx64 ", a summary that is not as counted afresh", fresh.word);
    bcube_answer dead = bcube_dead_switch(room, failed, servers, summary, switches);
    if (dead.word != first_dead())
        wrong(room, 0, 0, 0, "dead switch %016" PRIx64 ", wanted %016" PRIx64, dead.word, first_dead());
    if (bcube_dead_found(dead)) named++;
}

/* all links to the switch of a server at a level */
static void mark_switch(uint32_t server, uint32_t level) {
    for (uint32_t value = 0; value < bound(level); value++) mark(with_digit(server, level, value), level);
}

/* every link put anew: failed with a chance of one in so many */
static void fail_links(uint32_t density) {
    for (uint32_t a = 0; a < servers; a++)
        for (uint32_t l = 0; l <= k; l++) {
            int fails = any(density) == 0;
            if (fails) mark(a, l);
            else if (wanted[a] >> l & 1) clear(a, l);
        }
}

static void whole_room(uint32_t ports, uint32_t levels, uint32_t fill) {
    n = ports;
    k = levels;
    m = fill;
    servers = m * power(n, k);
    room = bcube_filled_room(n, k, m);
    switches = 0;
    for (uint32_t level = 0; level <= k; level++) switches += bcube_value(bcube_switches(room, level));
    memset(failed, 0, sizeof failed);
    memset(wanted, 0, sizeof wanted);
    memset(summary, 0, sizeof summary);
    forward_all(); /* every link live */
    uint32_t dead = any(servers), level = any(k + 1);
    mark_all(dead);
    held_marks();
    forward_all(); /* one dead server */
    clear_all(dead);
    mark_switch(any(servers), level);
    held_marks();
    forward_all(); /* one dead switch */
    for (uint32_t density = 32; density >= 4; density /= 2) {
        fail_links(density);
        held_marks();
        forward_all(); /* one link in 32, 16, 8, 4 */
    }
}

/* ---- steps with any numbers and lengths */

static uint64_t odd(uint32_t usual) {
    static const uint64_t edges[] = {0, 1, 2, 3, 4, 7, 8, 9, 63, 64, 65, 255, 256, 4095, 4096, 4097, 65535, 65536,
                                     0x7fffffff, 0x80000000, 0xffffffff, 0x100000000, 0x100000001, 0x8000000000000000,
                                     0xfffffffffffffffe, 0xffffffffffffffff};
    return any(3) == 0 ? edges[any(sizeof edges / sizeof *edges)] : any(usual);
}

static void any_steps(unsigned long count) {
    static const size_t lengths[] = {0, 7, 9, 16, 2040, 2047, 2049, 2056};
    static uint8_t path[2100], table[2100];
    while (count-- > 0) {
        bcube_room of = bcube_filled_room(odd(70), odd(5), odd(70));
        uint64_t here = odd(4200), destination = any(4) == 0 ? here : odd(4200);
        for (int i = 0; i < 16; i++) path[i] = (uint8_t)any(256);
        for (int i = 0; i < 8; i++) table[8 * path[any(8)] + i] = (uint8_t)any(256);
        for (int i = 0; i < 8; i++) table[8 * path[i] + 7] = (uint8_t)any(3);
        size_t path_len = any(8) == 0 ? lengths[any(8)] : 8, table_len = any(8) == 0 ? lengths[any(8)] : 2048;
        held_step(of, here, destination, odd(10), path, path_len, table, table_len);
        /* and in a room, so that most tests are passed */
        uint32_t p = 2 + any(7), l = any(4), f = 2 + any(p - 1), size = f * power(p, l);
        uint32_t a = any(size);
        path[any(8)] = (uint8_t)(64 * any(l + 1) + any(p));
        held_step(bcube_filled_room(p, l, f), a, any(8) == 0 ? a : any(size), any(9), path, 8, table, 2048);
    }
}

int main(void) {
    static const uint32_t rooms[][3] = {{2, 0, 2}, {5, 0, 5}, {4, 1, 4}, {2, 3, 2}, {3, 2, 3}, {3, 3, 3}, {9, 1, 9},
                                        {5, 0, 2}, {64, 0, 3}, {64, 0, 2}, {4, 1, 2}, {9, 1, 5}, {3, 2, 2}, {4, 2, 3},
                                        {3, 3, 2}, {8, 3, 4}, {9, 3, 5}, {12, 3, 2}, {45, 2, 2}};
    tables = malloc((size_t)BCUBE_MOST_SERVERS * sizeof *tables);
    if (!tables) return 2;
    const size_t count = sizeof rooms / sizeof *rooms;
    for (size_t i = 0; i < count; i++) whole_room(rooms[i][0], rooms[i][1], rooms[i][2]);
    unsigned long routed = steps;
    any_steps(200000);
    /* the worked numbers: at the destination any index, elsewhere 18 */
    uint8_t path[8] = {0}, *table = tables[0];
    bcube_room four = bcube_room_of(4, 1);
    bcube_stepped at = bcube_step(four, 3, 3, 8, path, 8, table, 2048), away = bcube_step(four, 0, 3, 8, path, 8, table, 2048);
    if (!bcube_step_delivered(at)) wrong(four, 3, 3, 8, "%016" PRIx64 ", wanted a delivery", at.word);
    if (bcube_step_refusal(away) != BCUBE_REFUSED_HOP_INDEX) wrong(four, 0, 3, 8, "%016" PRIx64 ", wanted refusal 18", away.word);
    printf("rooms");
    for (size_t i = 0; i < count; i++) printf(" (%" PRIu32 ",%" PRIu32 ",%" PRIu32 ")", rooms[i][0], rooms[i][1], rooms[i][2]);
    printf("\nseven failed-link tables each, by %lu marks and clears; %lu of the tables name a dead switch by their summary;\n"
           "%lu packets on built routes delivered after exactly their hops, %lu refused at their first failed link;\n"
           "%lu packets on selected routes delivered after exactly their hops, %lu pairs with no route;\n"
           "%lu traces of delivered packets read backwards as their reversed paths, %lu hops led back by a byte of a trace;\n"
           "%lu packets came to a server again, %lu by a switch, at the hops that the refusals of their paths name;\n"
           "%lu damaged paths followed, %lu to a vacant port and refused there, %lu steps; %lu steps of any numbers\n",
           changes, named, delivered, broken, selected, unreached, traced, led_back, came_again[0], came_again[1], damaged,
           vacant, routed, steps - routed);
    printf("%lu steps held to the rules, %lu wrong\n", steps, failures);
    free(tables);
    return failures != 0 || vacant == 0 || named == 0 || traced == 0 || came_again[0] == 0 || came_again[1] == 0;
}
