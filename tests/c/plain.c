/* The rules of the room in plain C, to hold the proved library to. It is written for the eye: a server is an
 * array of digits, two servers are neighbours and two switches are the same when their digits say so, and a
 * call makes its tests in the order in which the rules name them.
 *
 * The least route is found by trying all routes: of one hop, then of two, and so on to eight, in the order
 * of the rules (higher level first, then lower value), until one arrives. A branch is given up when it
 * cannot arrive in the hops that are left:
 *   - in rooms of at most 64 servers, when more digits differ from the destination's than hops are left (each
 *     hop changes one), or when every link of the destination is failed or leads to an avoided switch;
 *   - in larger rooms, so that the search ends, when the destination is farther than the hops left, by a
 *     table of distances to it over usable hops.
 *
 * A spanning tree is grown as Figure 5 of the paper grows it, server by server, and a parent is looked up there. */
#include "plain.h"

#include <assert.h>
#include <string.h>

enum { LEVELS = 4, HOPS = 8, ARRAY = 8, MOST_SERVERS = 4096, SMALL_ROOM = 64, FAR = 255 };

/* ---- words */

static bcube_answer refused_at(uint32_t number, uint32_t route, uint32_t hop) {
    return (bcube_answer){(uint64_t)number | (uint64_t)route << 8 | (uint64_t)hop << 16};
}

static bcube_answer refused(uint32_t number) { return refused_at(number, 0, 0); }

/* the refusal with the earlier place that it names */
static bcube_answer naming(bcube_answer refusal, uint32_t route, uint32_t hop) {
    return (bcube_answer){refusal.word | (uint64_t)(16 * route + hop) << 24};
}

static bcube_answer answered(uint32_t value) { return (bcube_answer){(uint64_t)value << 32}; }

static const bcube_answer passed = {0};

static int is_refused(bcube_answer answer) { return (answer.word & 255) != 0; }

/* ---- rooms, places and switches */

struct room {
    uint32_t n, k, m, servers;
};

/* a server by its digits; those above k are zero */
struct place {
    uint32_t digit[LEVELS];
};

/* opens the room, and gives the refusal of its shape, or 0; m is all that stands above k */
static uint32_t enter(struct room *room, bcube_room value) {
    uint64_t n = value.number & 255, k = value.number >> 8 & 255, m = value.number >> 16;
    if (n < 2 || n > 64) return 1;
    if (k > 3) return 2;
    if (m < 2 || m > n) return 26;
    uint64_t servers = m;
    for (uint64_t level = 0; level < k; level++) servers *= n;
    if (servers > MOST_SERVERS) return 3;
    room->n = (uint32_t)n;
    room->k = (uint32_t)k;
    room->m = (uint32_t)m;
    room->servers = (uint32_t)servers;
    return 0;
}

/* how many values a digit at this level has */
static uint32_t bound(const struct room *room, uint32_t level) { return level == room->k ? room->m : room->n; }

static struct place place_of(const struct room *room, uint64_t address) {
    struct place place = {{0}};
    for (uint32_t level = 0; level <= room->k; level++) {
        place.digit[level] = (uint32_t)(address % room->n);
        address /= room->n;
    }
    return place;
}

static uint32_t address_of(const struct room *room, const struct place *place) {
    uint32_t address = 0;
    for (uint32_t level = room->k + 1; level-- > 0;) address = address * room->n + place->digit[level];
    return address;
}

/* the place with one digit changed */
static struct place moved(struct place place, uint32_t level, uint32_t value) {
    place.digit[level] = value;
    return place;
}

static uint32_t differing(const struct place *one, const struct place *other) {
    uint32_t count = 0;
    for (uint32_t level = 0; level < LEVELS; level++) count += one->digit[level] != other->digit[level];
    return count;
}

static int same_place(const struct place *one, const struct place *other) { return differing(one, other) == 0; }

/* the level of the first digit that differs; there has to be one */
static uint32_t first_differing(const struct place *one, const struct place *other) {
    uint32_t level = 0;
    while (one->digit[level] == other->digit[level]) level++;
    return level;
}

/* the path byte of the hop from a place to its neighbour: where they differ, and the neighbour's digit there */
static uint32_t byte_to(const struct place *from, const struct place *to) {
    uint32_t level = first_differing(from, to);
    return 64 * level + to->digit[level];
}

/* the digits with one struck out and the rest closed up, as a number */
static uint32_t switch_number(const struct room *room, const struct place *place, uint32_t level) {
    uint32_t number = 0;
    for (uint32_t i = room->k + 1; i-- > 0;)
        if (i != level) number = number * room->n + place->digit[i];
    return number;
}

/* whether two servers have the same switch, one at one level, the other at another */
static int same_switch(const struct place *one, uint32_t one_level, const struct place *other, uint32_t other_level) {
    if (one_level != other_level) return 0;
    for (uint32_t level = 0; level < LEVELS; level++)
        if (level != one_level && one->digit[level] != other->digit[level]) return 0;
    return 1;
}

/* ---- tests of arguments: each gives a refusal's number, or 0 */

static uint32_t ends_refusal(const struct room *room, uint64_t source, uint64_t destination) {
    if (source >= room->servers || destination >= room->servers) return 4;
    if (source == destination) return 5;
    return 0;
}

static uint32_t table_refusal(const struct room *room, const uint8_t *table, size_t table_len) {
    if (table_len != room->servers) return 6;
    for (size_t i = 0; i < table_len; i++)
        if (table[i] >> (room->k + 1) != 0) return 6;
    return 0;
}

static uint32_t link_refusal(const struct room *room, uint64_t server, uint64_t level, const uint8_t *table,
                             size_t table_len) {
    if (server >= room->servers) return 4;
    if (level > room->k) return 20;
    return table_refusal(room, table, table_len);
}

static uint32_t list_refusal(const struct room *room, size_t list_len) {
    return list_len % ARRAY != 0 || list_len > ARRAY * (room->k + 1) ? 7 : 0;
}

static int link_failed(const struct room *room, const uint8_t *table, const struct place *place, uint32_t level) {
    return table[address_of(room, place)] >> level & 1;
}

/* ---- routes: the places met, and the level of each hop between them */

struct route {
    uint32_t hops;
    struct place met[HOPS + 1];
    uint32_t level[HOPS];
};

static void begin(struct route *route, struct place source) {
    route->hops = 0;
    route->met[0] = source;
}

static struct place last(const struct route *route) { return route->met[route->hops]; }

static void append(struct route *route, uint32_t level, uint32_t value) {
    route->level[route->hops] = level;
    route->met[route->hops + 1] = moved(route->met[route->hops], level, value);
    route->hops++;
}

enum { NEVER = HOPS + 1 };

/* the hop by which the route came to this place, as one goes back from where it is now; 0 for the source, or NEVER */
static uint32_t hop_to(const struct route *route, const struct place *place) {
    for (uint32_t hop = route->hops + 1; hop-- > 0;)
        if (same_place(&route->met[hop], place)) return hop;
    return NEVER;
}

/* the hop by which it used the switch of this place at this level, counted from 1, or NEVER */
static uint32_t hop_by(const struct route *route, const struct place *place, uint32_t level) {
    for (uint32_t hop = route->hops; hop > 0; hop--)
        if (same_switch(&route->met[hop], route->level[hop - 1], place, level)) return hop;
    return NEVER;
}

static int meets(const struct route *route, const struct place *place) { return hop_to(route, place) != NEVER; }

static int uses_switch(const struct route *route, const struct place *place, uint32_t level) {
    return hop_by(route, place, level) != NEVER;
}

static int is_end(const struct route *route, const struct place *place) {
    return same_place(place, &route->met[0]) || same_place(place, &route->met[route->hops]);
}

/* whether a hop of one route and a hop of another, each counted from 1, use the same switch, or both lead to the same
 * server, which is not an end */
static int hops_meet(const struct route *one, uint32_t hop, const struct route *other, uint32_t other_hop) {
    const struct place *to = &one->met[hop], *other_to = &other->met[other_hop];
    if (same_switch(to, one->level[hop - 1], other_to, other->level[other_hop - 1])) return 1;
    return same_place(to, other_to) && !is_end(one, to);
}

static int crosses_failed(const struct room *room, const uint8_t *table, const struct route *route) {
    for (uint32_t i = 0; i < route->hops; i++)
        if (link_failed(room, table, &route->met[i], route->level[i]) ||
            link_failed(room, table, &route->met[i + 1], route->level[i]))
            return 1;
    return 0;
}

static void put_bytes(const struct route *route, uint8_t bytes[ARRAY]) {
    memset(bytes, 0, ARRAY);
    for (uint32_t i = 0; i < route->hops; i++)
        bytes[i] = (uint8_t)(64 * route->level[i] + route->met[i + 1].digit[route->level[i]]);
}

/* ---- reading path bytes */

/* one more hop of the route of this number, refused where the route has been at that server, or by that switch */
static bcube_answer add_hop(struct route *route, uint32_t level, uint32_t value, uint32_t number) {
    struct place from = last(route), to = moved(from, level, value);
    uint32_t hop = route->hops + 1;
    if (meets(route, &to)) return naming(refused_at(28, number, hop), 0, hop_to(route, &to));
    if (uses_switch(route, &from, level)) return naming(refused_at(29, number, hop), 0, hop_by(route, &from, level));
    append(route, level, value);
    return passed;
}

/* one more hop, by its path byte, of the route of this number; without a table every link is live */
static bcube_answer read_hop(const struct room *room, const uint8_t *table, struct route *route, uint8_t byte,
                             uint32_t number) {
    uint32_t level = byte / 64, value = byte % 64, hop = route->hops + 1;
    struct place from = last(route);
    if (level > room->k) return refused_at(8, number, hop);
    if (value >= bound(room, level)) return refused_at(9, number, hop);
    if (from.digit[level] == value) return refused_at(10, number, hop);
    struct place to = moved(from, level, value);
    if (table && (link_failed(room, table, &from, level) || link_failed(room, table, &to, level)))
        return refused_at(11, number, hop);
    return add_hop(route, level, value, number);
}

/* the array as route number `number` of its list; gives its refusal, or passes */
static bcube_answer read_array(const struct room *room, const uint8_t *table, uint64_t source, uint64_t destination,
                               const uint8_t *array, uint32_t number, struct route *route) {
    struct place goal = place_of(room, destination);
    begin(route, place_of(room, source));
    for (uint32_t i = 0; i < HOPS; i++) {
        bcube_answer answer = read_hop(room, table, route, array[i], number);
        if (is_refused(answer)) return answer;
        struct place here = last(route);
        if (!same_place(&here, &goal)) continue;
        for (uint32_t j = i + 1; j < HOPS; j++)
            if (array[j] != 0) return refused_at(14, number, j + 1);
        return passed;
    }
    return refused_at(13, number, HOPS);
}

/* ---- built routes */

static void correct(struct route *route, const struct place *goal, uint32_t level) {
    if (last(route).digit[level] != goal->digit[level]) append(route, level, goal->digit[level]);
}

static struct route built_route(const struct room *room, const struct place *source, const struct place *goal,
                                uint32_t slot) {
    struct route route;
    begin(&route, *source);
    int detour = source->digit[slot] == goal->digit[slot];
    if (detour)
        append(&route, slot, (source->digit[slot] + 1) % bound(room, slot));
    else
        correct(&route, goal, slot);
    for (uint32_t level = slot; level-- > 0;) correct(&route, goal, level);
    for (uint32_t level = room->k; level > slot; level--) correct(&route, goal, level);
    if (detour) correct(&route, goal, slot);
    return route;
}

/* ---- the least route */

struct search {
    const struct room *room;
    const uint8_t *table;
    struct place goal;
    uint8_t shut_server[MOST_SERVERS], shut_switch[LEVELS][MOST_SERVERS];
    uint8_t distance[MOST_SERVERS]; /* to the goal, in hops; only in rooms above SMALL_ROOM */
};

static void begin_search(struct search *search, const struct room *room, const uint8_t *table, uint64_t destination) {
    search->room = room;
    search->table = table;
    search->goal = place_of(room, destination);
    memset(search->shut_server, 0, sizeof search->shut_server);
    memset(search->shut_switch, 0, sizeof search->shut_switch);
}

/* the search avoids the switches and the middle servers of this route */
static void avoid(struct search *search, const struct route *route) {
    for (uint32_t i = 0; i < route->hops; i++)
        search->shut_switch[route->level[i]][switch_number(search->room, &route->met[i], route->level[i])] = 1;
    for (uint32_t i = 1; i < route->hops; i++) search->shut_server[address_of(search->room, &route->met[i])] = 1;
}

/* whether a route may leave or enter this server at this level */
static int open_at(const struct search *search, const struct place *place, uint32_t level) {
    return !link_failed(search->room, search->table, place, level) &&
           !search->shut_switch[level][switch_number(search->room, place, level)];
}

static int enterable(const struct search *search) {
    for (uint32_t level = 0; level <= search->room->k; level++)
        if (open_at(search, &search->goal, level)) return 1;
    return 0;
}

/* whether a route may go from one server to its neighbour at this level, having left the first */
static int may_enter(const struct search *search, const struct place *to, uint32_t level) {
    return !link_failed(search->room, search->table, to, level) && !search->shut_server[address_of(search->room, to)];
}

/* gives the distance to every neighbour of a server that has none yet */
static void spread(struct search *search, uint32_t address, uint8_t distance) {
    struct place here = place_of(search->room, address);
    for (uint32_t level = 0; level <= search->room->k; level++) {
        if (!open_at(search, &here, level)) continue;
        for (uint32_t value = 0; value < bound(search->room, level); value++) {
            struct place there = moved(here, level, value);
            uint8_t *known = &search->distance[address_of(search->room, &there)];
            if (*known == FAR && may_enter(search, &there, level)) *known = distance;
        }
    }
}

static void measure(struct search *search, uint32_t source) {
    memset(search->distance, FAR, sizeof search->distance);
    search->distance[address_of(search->room, &search->goal)] = 0;
    for (uint8_t distance = 1; distance <= HOPS && search->distance[source] == FAR; distance++)
        for (uint32_t address = 0; address < search->room->servers; address++)
            if (search->distance[address] == distance - 1) spread(search, address, distance);
}

/* no route from here arrives in fewer hops */
static uint32_t fewest_left(const struct search *search, const struct place *here) {
    if (search->room->servers <= SMALL_ROOM) return differing(here, &search->goal);
    return search->distance[address_of(search->room, here)];
}

/* carries the route on to the goal in exactly so many hops, the first way in the order of the rules; 0 if there
 * is none, and the route is then as it was */
static int extend(const struct search *search, struct route *route, uint32_t left) {
    struct place here = last(route);
    if (same_place(&here, &search->goal)) return left == 0;
    if (fewest_left(search, &here) > left) return 0;
    for (uint32_t level = search->room->k + 1; level-- > 0;) {
        if (!open_at(search, &here, level) || uses_switch(route, &here, level)) continue;
        for (uint32_t value = 0; value < bound(search->room, level); value++) {
            struct place there = moved(here, level, value);
            if (value == here.digit[level] || !may_enter(search, &there, level) || meets(route, &there)) continue;
            append(route, level, value);
            if (extend(search, route, left - 1)) return 1;
            route->hops--;
        }
    }
    return 0;
}

/* 1 and the least route from the source to the goal, or 0 */
static int least_route(struct search *search, uint64_t source, struct route *route) {
    begin(route, place_of(search->room, source));
    if (search->room->servers > SMALL_ROOM)
        measure(search, (uint32_t)source);
    else if (!enterable(search))
        return 0;
    for (uint32_t hops = 1; hops <= HOPS; hops++)
        if (extend(search, route, hops)) return 1;
    return 0;
}

/* ---- spanning trees */

struct tree {
    struct room room;
    uint32_t source, own;           /* its own level */
    uint32_t count;                 /* of the servers that it has, */
    uint32_t server[MOST_SERVERS];  /* which are these, in the order in which they were added; */
    uint32_t parent[MOST_SERVERS];  /* and the parent of each, by its address */
};

/* one more server, that the tree has not, by a hop from its parent */
static void add_server(struct tree *tree, const struct place *parent, const struct place *server) {
    uint32_t address = address_of(&tree->room, server);
    assert(address != tree->source && tree->parent[address] == UINT32_MAX);
    tree->parent[address] = address_of(&tree->room, parent);
    tree->server[tree->count++] = address;
}

static struct place raised(const struct room *room, struct place place, uint32_t level) {
    return moved(place, level, (place.digit[level] + 1) % bound(room, level));
}

/* from a server that the tree has: the digit at the level raised by one, so many times, and a server added each time */
static void add_chain(struct tree *tree, uint32_t server, uint32_t level, uint32_t times) {
    struct place here = place_of(&tree->room, server);
    while (times-- > 0) {
        struct place next = raised(&tree->room, here, level);
        add_server(tree, &here, &next);
        here = next;
    }
}

/* the first part: the root, then a pass for each level from the tree's own on, with a chain from each server that the
 * tree had before. At its own level the root is one step on already, and a chain ends before the source's own digit */
static void add_passes(struct tree *tree, const struct place *source) {
    uint32_t levels = tree->room.k + 1;
    struct place root = raised(&tree->room, *source, tree->own);
    add_server(tree, source, &root);
    for (uint32_t pass = 0; pass < levels; pass++) {
        uint32_t level = (tree->own + pass) % levels, had = tree->count;
        uint32_t times = bound(&tree->room, level) - (pass == 0 ? 2 : 1);
        for (uint32_t i = 0; i < had; i++) add_chain(tree, tree->server[i], level, times);
    }
}

/* the second part: the servers that have the source's own digit there, each from the one whose digit is one lower */
static void add_others(struct tree *tree, const struct place *source) {
    uint32_t own = source->digit[tree->own], values = bound(&tree->room, tree->own);
    for (uint32_t server = 0; server < tree->room.servers; server++) {
        struct place place = place_of(&tree->room, server), below = moved(place, tree->own, (own + values - 1) % values);
        if (place.digit[tree->own] == own && server != tree->source) add_server(tree, &below, &place);
    }
}

/* the tree of a source; the one asked for last is kept */
static const struct tree *tree_of(const struct room *room, uint64_t source, uint64_t own) {
    static struct tree tree;
    if (memcmp(&tree.room, room, sizeof *room) == 0 && tree.source == source && tree.own == own) return &tree;
    struct place from = place_of(room, source);
    tree.room = *room;
    tree.source = (uint32_t)source;
    tree.own = (uint32_t)own;
    tree.count = 0;
    for (uint32_t server = 0; server < MOST_SERVERS; server++) tree.parent[server] = UINT32_MAX;
    add_passes(&tree, &from);
    add_others(&tree, &from);
    assert(tree.count == room->servers - 1);
    return &tree;
}

/* ---- the calls: the room, addresses and switches */

uint64_t plain_version(void) { return 50100; }

static uint64_t held(uint64_t number) { return number > 255 ? 255 : number; }

bcube_room plain_filled_room(uint64_t n, uint64_t k, uint64_t m) {
    return (bcube_room){held(n) | held(k) << 8 | held(m) << 16};
}

bcube_room plain_room_of(uint64_t n, uint64_t k) { return plain_filled_room(n, k, n); }

bcube_answer plain_shape(bcube_room value) {
    struct room room;
    return refused(enter(&room, value));
}

bcube_answer plain_servers(bcube_room value) {
    struct room room;
    uint32_t why = enter(&room, value);
    if (why) return refused(why);
    return answered(room.servers);
}

bcube_answer plain_bound(bcube_room value, uint64_t level) {
    struct room room;
    uint32_t why = enter(&room, value);
    if (why) return refused(why);
    if (level > room.k) return refused(20);
    return answered(bound(&room, (uint32_t)level));
}

/* one more than the highest number of a switch that any server has at the level */
static uint32_t switches(const struct room *room, uint32_t level) {
    uint32_t most = 0;
    for (uint32_t server = 0; server < room->servers; server++) {
        struct place place = place_of(room, server);
        uint32_t number = switch_number(room, &place, level);
        if (number > most) most = number;
    }
    return most + 1;
}

bcube_answer plain_switches(bcube_room value, uint64_t level) {
    struct room room;
    uint32_t why = enter(&room, value);
    if (why) return refused(why);
    if (level > room.k) return refused(20);
    return answered(switches(&room, (uint32_t)level));
}

bcube_answer plain_digits(bcube_room value, uint64_t server, uint64_t digits[4]) {
    struct room room;
    uint32_t why = enter(&room, value);
    if (why) return refused(why);
    if (server >= room.servers) return refused(4);
    struct place place = place_of(&room, server);
    for (uint32_t level = 0; level < LEVELS; level++) digits[level] = place.digit[level];
    return answered(0);
}

bcube_answer plain_digit(bcube_room value, uint64_t server, uint64_t level) {
    struct room room;
    uint32_t why = enter(&room, value);
    if (why) return refused(why);
    if (server >= room.servers) return refused(4);
    if (level > room.k) return refused(20);
    return answered(place_of(&room, server).digit[level]);
}

bcube_answer plain_address(bcube_room value, uint64_t d0, uint64_t d1, uint64_t d2, uint64_t d3) {
    struct room room;
    const uint64_t digit[LEVELS] = {d0, d1, d2, d3};
    struct place place = {{0}};
    uint32_t why = enter(&room, value);
    if (why) return refused(why);
    for (uint32_t level = 0; level < LEVELS; level++) {
        if (level <= room.k ? digit[level] >= bound(&room, level) : digit[level] != 0) return refused(21);
        place.digit[level] = (uint32_t)digit[level];
    }
    return answered(address_of(&room, &place));
}

bcube_answer plain_switch(bcube_room value, uint64_t server, uint64_t level) {
    struct room room;
    uint32_t why = enter(&room, value);
    if (why) return refused(why);
    if (server >= room.servers) return refused(4);
    if (level > room.k) return refused(20);
    struct place place = place_of(&room, server);
    return answered(switch_number(&room, &place, (uint32_t)level));
}

/* looked for among all servers */
bcube_answer plain_server_at(bcube_room value, uint64_t level, uint64_t number, uint64_t port) {
    struct room room;
    uint32_t why = enter(&room, value);
    if (why) return refused(why);
    if (level > room.k) return refused(20);
    for (uint32_t server = 0; server < room.servers; server++) {
        struct place place = place_of(&room, server);
        if (place.digit[level] == port && switch_number(&room, &place, (uint32_t)level) == number) return answered(server);
    }
    return refused(21);
}

bcube_answer plain_neighbour(bcube_room value, uint64_t server, uint64_t level, uint64_t digit) {
    struct room room;
    uint32_t why = enter(&room, value);
    if (why) return refused(why);
    if (server >= room.servers) return refused(4);
    if (level > room.k) return refused(20);
    if (digit >= bound(&room, (uint32_t)level)) return refused(21);
    struct place there = moved(place_of(&room, server), (uint32_t)level, (uint32_t)digit);
    return answered(address_of(&room, &there));
}

bcube_answer plain_between(bcube_room value, uint64_t one, uint64_t other) {
    struct room room;
    uint32_t why = enter(&room, value);
    if (why) return refused(why);
    if (one >= room.servers || other >= room.servers) return refused(4);
    struct place here = place_of(&room, one), there = place_of(&room, other);
    return answered(differing(&here, &there) == 1 ? first_differing(&here, &there) + 1 : 0);
}

/* ---- the calls: the failed-link table */

bcube_answer plain_failed_link(bcube_room value, uint64_t server, uint64_t level, const uint8_t *table,
                               size_t table_len) {
    struct room room;
    uint32_t why = enter(&room, value);
    if (!why) why = link_refusal(&room, server, level, table, table_len);
    if (why) return refused(why);
    return answered(table[server] >> level & 1);
}

/* ---- the calls: the table and its summary */

/* all servers counted, each at its own switch of each level: how many there are, and how many have that link failed */
struct tally {
    uint32_t switches[LEVELS]; /* of each level: one more than the highest number met */
    uint8_t servers[LEVELS][MOST_SERVERS], failed[LEVELS][MOST_SERVERS];
};

static void count_servers(struct tally *tally, const struct room *room, const uint8_t *table) {
    memset(tally, 0, sizeof *tally);
    for (uint32_t server = 0; server < room->servers; server++) {
        struct place place = place_of(room, server);
        for (uint32_t level = 0; level <= room->k; level++) {
            uint32_t number = switch_number(room, &place, level);
            if (number >= tally->switches[level]) tally->switches[level] = number + 1;
            tally->servers[level][number]++;
            if (table[server] >> level & 1) tally->failed[level][number]++;
        }
    }
}

/* where the entry of a switch stands: behind those of all lower levels */
static size_t entry_place(const struct tally *tally, uint32_t level, uint32_t number) {
    size_t place = number;
    for (uint32_t lower = 0; lower < level; lower++) place += tally->switches[lower];
    return place;
}

static size_t entries(const struct room *room, const struct tally *tally) { return entry_place(tally, room->k + 1, 0); }

/* puts the links of a server at the levels from one to another to one state, and counts the entries of their switches
 * again; before that these entries have to be what the table counts */
static bcube_answer put_links(const struct room *room, uint64_t server, uint32_t from, uint32_t to, int failed,
                              uint8_t *table, uint8_t *summary, size_t summary_len) {
    struct tally tally;
    struct place place = place_of(room, server);
    size_t at[LEVELS];
    uint32_t number[LEVELS];
    count_servers(&tally, room, table);
    if (summary_len != entries(room, &tally)) return refused(30);
    for (uint32_t level = from; level <= to; level++) {
        number[level] = switch_number(room, &place, level);
        at[level] = entry_place(&tally, level, number[level]);
        if (summary[at[level]] != tally.failed[level][number[level]]) return refused(30);
    }
    for (uint32_t level = from; level <= to; level++)
        table[server] = (uint8_t)(failed ? table[server] | 1u << level : table[server] & ~(1u << level));
    count_servers(&tally, room, table);
    for (uint32_t level = from; level <= to; level++) summary[at[level]] = tally.failed[level][number[level]];
    return answered(0);
}

static bcube_answer put_one(bcube_room value, uint64_t server, uint64_t level, uint8_t *table, size_t table_len,
                            uint8_t *summary, size_t summary_len, int failed) {
    struct room room;
    uint32_t why = enter(&room, value);
    if (!why) why = link_refusal(&room, server, level, table, table_len);
    if (why) return refused(why);
    return put_links(&room, server, (uint32_t)level, (uint32_t)level, failed, table, summary, summary_len);
}

static bcube_answer put_all(bcube_room value, uint64_t server, uint8_t *table, size_t table_len, uint8_t *summary,
                            size_t summary_len, int failed) {
    struct room room;
    uint32_t why = enter(&room, value);
    if (!why) why = link_refusal(&room, server, 0, table, table_len);
    if (why) return refused(why);
    return put_links(&room, server, 0, room.k, failed, table, summary, summary_len);
}

bcube_answer plain_mark(bcube_room value, uint64_t server, uint64_t level, uint8_t *table, size_t table_len,
                        uint8_t *summary, size_t summary_len) {
    return put_one(value, server, level, table, table_len, summary, summary_len, 1);
}

bcube_answer plain_clear(bcube_room value, uint64_t server, uint64_t level, uint8_t *table, size_t table_len,
                         uint8_t *summary, size_t summary_len) {
    return put_one(value, server, level, table, table_len, summary, summary_len, 0);
}

bcube_answer plain_mark_all(bcube_room value, uint64_t server, uint8_t *table, size_t table_len, uint8_t *summary,
                            size_t summary_len) {
    return put_all(value, server, table, table_len, summary, summary_len, 1);
}

bcube_answer plain_clear_all(bcube_room value, uint64_t server, uint8_t *table, size_t table_len, uint8_t *summary,
                             size_t summary_len) {
    return put_all(value, server, table, table_len, summary, summary_len, 0);
}

/* what the question and the count afresh have in common: gives a refusal, or passes with the room and its tally */
static bcube_answer tallied(bcube_room value, const uint8_t *table, size_t table_len, size_t summary_len,
                            struct room *room, struct tally *tally) {
    uint32_t why = enter(room, value);
    if (!why) why = table_refusal(room, table, table_len);
    if (why) return refused(why);
    count_servers(tally, room, table);
    return summary_len != entries(room, tally) ? refused(30) : passed;
}

/* dead is a switch none of whose servers has a live link to it */
bcube_answer plain_dead_switch(bcube_room value, const uint8_t *table, size_t table_len, const uint8_t *summary,
                               size_t summary_len) {
    struct room room;
    struct tally tally;
    bcube_answer answer = tallied(value, table, table_len, summary_len, &room, &tally);
    if (is_refused(answer)) return answer;
    for (uint32_t level = 0; level <= room.k; level++)
        for (uint32_t number = 0; number < tally.switches[level]; number++)
            if (*summary++ != tally.failed[level][number]) return refused(30);
    for (uint32_t level = 0; level <= room.k; level++)
        for (uint32_t number = 0; number < tally.switches[level]; number++)
            if (tally.failed[level][number] == tally.servers[level][number])
                return answered(1u << 24 | level << 16 | number);
    return answered(0);
}

bcube_answer plain_summarize(bcube_room value, const uint8_t *table, size_t table_len, uint8_t *summary,
                             size_t summary_len) {
    struct room room;
    struct tally tally;
    bcube_answer answer = tallied(value, table, table_len, summary_len, &room, &tally);
    if (is_refused(answer)) return answer;
    for (uint32_t level = 0; level <= room.k; level++)
        for (uint32_t number = 0; number < tally.switches[level]; number++)
            *summary++ = tally.failed[level][number];
    return answered(0);
}

/* ---- the calls: path bytes */

bcube_answer plain_path_byte(bcube_room value, uint64_t level, uint64_t digit) {
    struct room room;
    uint32_t why = enter(&room, value);
    if (why) return refused(why);
    if (level > room.k) return refused(20);
    if (digit >= bound(&room, (uint32_t)level)) return refused(21);
    return answered((uint32_t)(64 * level + digit));
}

bcube_answer plain_path_byte_parts(bcube_room value, uint64_t byte) {
    struct room room;
    uint32_t why = enter(&room, value);
    if (why) return refused(why);
    uint64_t level = byte >> 6, digit = byte & 63;
    if (level > room.k) return refused_at(8, 1, 1);
    if (digit >= bound(&room, (uint32_t)level)) return refused_at(9, 1, 1);
    return answered((uint32_t)(level << 8 | digit));
}

/* the way back is the hop from the place that is reached to the one that was left, and its byte is read off the two */
bcube_answer plain_hop_of(bcube_room value, uint64_t server, uint64_t byte) {
    struct room room;
    uint32_t why = enter(&room, value);
    if (!why && server >= room.servers) why = 4;
    if (why) return refused(why);
    if (byte > 255) return refused_at(8, 1, 1);
    uint32_t level = (uint32_t)byte >> 6, digit = (uint32_t)byte & 63;
    struct place from = place_of(&room, server);
    if (level > room.k) return refused_at(8, 1, 1);
    if (digit >= bound(&room, level)) return refused_at(9, 1, 1);
    if (from.digit[level] == digit) return refused_at(10, 1, 1);
    struct place to = moved(from, level, digit);
    return answered(byte_to(&to, &from) << 16 | address_of(&room, &to));
}

/* what reading and reversal have in common: gives a refusal, or passes with the route */
static bcube_answer read_single(bcube_room value, uint64_t source, uint64_t destination, const uint8_t *path,
                                size_t path_len, struct room *room, struct route *route) {
    uint32_t why = enter(room, value);
    if (!why) why = ends_refusal(room, source, destination);
    if (!why && path_len != ARRAY) why = 7;
    if (why) return refused(why);
    return read_array(room, NULL, source, destination, path, 1, route);
}

bcube_answer plain_read(bcube_room value, uint64_t source, uint64_t destination, const uint8_t *path,
                        size_t path_len, uint64_t servers[9]) {
    struct room room;
    struct route route;
    bcube_answer answer = read_single(value, source, destination, path, path_len, &room, &route);
    if (is_refused(answer)) return answer;
    for (uint32_t i = 0; i <= HOPS; i++) servers[i] = i <= route.hops ? address_of(&room, &route.met[i]) : 0;
    return answered(route.hops + 1);
}

bcube_answer plain_write(bcube_room value, const uint64_t *servers, size_t servers_len, uint8_t path[8]) {
    struct room room;
    struct route route;
    uint32_t why = enter(&room, value);
    if (why) return refused(why);
    if (servers_len < 2 || servers_len > HOPS + 1) return refused(22);
    for (size_t i = 0; i < servers_len; i++)
        if (servers[i] >= room.servers) return refused(4);
    if (servers[0] == servers[servers_len - 1]) return refused(5);
    begin(&route, place_of(&room, servers[0]));
    for (uint32_t i = 1; i < servers_len; i++) {
        struct place from = last(&route), to = place_of(&room, servers[i]);
        if (differing(&from, &to) != 1) return refused_at(23, 1, i);
        uint32_t level = first_differing(&from, &to);
        bcube_answer answer = add_hop(&route, level, to.digit[level], 1);
        if (is_refused(answer)) return answer;
    }
    put_bytes(&route, path);
    return answered(0);
}

bcube_answer plain_reverse(bcube_room value, uint64_t source, uint64_t destination, const uint8_t *path,
                           size_t path_len, uint8_t reversed[8]) {
    struct room room;
    struct route route, back;
    bcube_answer answer = read_single(value, source, destination, path, path_len, &room, &route);
    if (is_refused(answer)) return answer;
    begin(&back, last(&route));
    for (uint32_t i = route.hops; i-- > 0;) append(&back, route.level[i], route.met[i].digit[route.level[i]]);
    put_bytes(&back, reversed);
    return answered(0);
}

/* all meetings of two routes, each as the first one's hop and the later one's hop, four bits each; gives the least, or 0
 * where they are parallel */
static uint32_t least_hops(const struct route *first, const struct route *other) {
    uint32_t least = 0;
    for (uint32_t later = 1; later <= other->hops; later++)
        for (uint32_t hop = 1; hop <= first->hops; hop++)
            if (hops_meet(first, hop, other, later) && (least == 0 || (hop << 4 | later) < least)) least = hop << 4 | later;
    return least;
}

/* the same of these routes, by the numbers of the first route and of the later one, then by their hops */
static uint32_t least_meeting(const struct route *route, uint32_t count) {
    uint32_t least = 0;
    for (uint32_t j = 1; j < count; j++)
        for (uint32_t i = 0; i < j; i++) {
            uint32_t hops = least_hops(&route[i], &route[j]), meeting = (i + 1) << 12 | (j + 1) << 8 | hops;
            if (hops != 0 && (least == 0 || meeting < least)) least = meeting;
        }
    return least;
}

/* the routes of a list, each and in pairs; gives a refusal, or passes */
static bcube_answer check_routes(const struct room *room, uint64_t source, uint64_t destination, const uint8_t *table,
                                 const uint8_t *list, uint32_t count) {
    struct route route[LEVELS];
    for (uint32_t i = 0; i < count; i++) {
        bcube_answer answer = read_array(room, table, source, destination, list + ARRAY * i, i + 1, &route[i]);
        if (is_refused(answer)) return answer;
    }
    uint32_t meeting = least_meeting(route, count);
    if (meeting == 0) return passed;
    return naming(refused_at(15, meeting >> 8 & 15, meeting & 15), meeting >> 12, meeting >> 4 & 15);
}

bcube_answer plain_check(bcube_room value, uint64_t source, uint64_t destination, const uint8_t *table,
                         size_t table_len, const uint8_t *list, size_t list_len) {
    struct room room;
    uint32_t why = enter(&room, value);
    if (!why) why = ends_refusal(&room, source, destination);
    if (!why) why = table_refusal(&room, table, table_len);
    if (!why) why = list_len == 0 ? 7 : list_refusal(&room, list_len);
    if (why) return refused(why);
    return check_routes(&room, source, destination, table, list, (uint32_t)(list_len / ARRAY));
}

/* ---- the calls: routes */

bcube_answer plain_build(bcube_room value, uint64_t source, uint64_t destination, uint8_t routes[32]) {
    struct room room;
    uint32_t why = enter(&room, value), count = 0;
    if (!why) why = ends_refusal(&room, source, destination);
    if (why) return refused(why);
    struct place from = place_of(&room, source), to = place_of(&room, destination);
    memset(routes, 0, ARRAY * LEVELS);
    for (uint32_t slot = room.k + 1; slot-- > 0;) {
        struct route route = built_route(&room, &from, &to, slot);
        put_bytes(&route, routes + ARRAY * count++);
    }
    return answered(count);
}

bcube_answer plain_find(bcube_room value, uint64_t source, uint64_t destination, const uint8_t *table,
                        size_t table_len, uint8_t path[8]) {
    struct room room;
    struct search search;
    struct route route;
    uint32_t why = enter(&room, value);
    if (!why) why = ends_refusal(&room, source, destination);
    if (!why) why = table_refusal(&room, table, table_len);
    if (why) return refused(why);
    begin_search(&search, &room, table, destination);
    if (!least_route(&search, source, &route)) route.hops = 0;
    put_bytes(&route, path);
    return answered(route.hops);
}

/* the alternate for a slot: avoids the settled routes, and the built routes of the lower slots */
static int alternate(const struct room *room, const uint8_t *table, uint64_t source, uint64_t destination,
                     const struct route *settled, uint32_t count, const struct route *built, uint32_t slot,
                     struct route *route) {
    struct search search;
    begin_search(&search, room, table, destination);
    for (uint32_t i = 0; i < count; i++) avoid(&search, &settled[i]);
    for (uint32_t lower = 0; lower < slot; lower++) avoid(&search, &built[lower]);
    return least_route(&search, source, route);
}

bcube_answer plain_select(bcube_room value, uint64_t source, uint64_t destination, const uint8_t *table,
                          size_t table_len, uint8_t routes[32]) {
    struct room room;
    struct route built[LEVELS], settled[LEVELS];
    uint32_t why = enter(&room, value), count = 0;
    if (!why) why = ends_refusal(&room, source, destination);
    if (!why) why = table_refusal(&room, table, table_len);
    if (why) return refused(why);
    struct place from = place_of(&room, source), to = place_of(&room, destination);
    for (uint32_t slot = 0; slot <= room.k; slot++) built[slot] = built_route(&room, &from, &to, slot);
    for (uint32_t slot = room.k + 1; slot-- > 0;) {
        if (!crosses_failed(&room, table, &built[slot]))
            settled[count++] = built[slot];
        else if (alternate(&room, table, source, destination, settled, count, built, slot, &settled[count]))
            count++;
    }
    if (count == 0) return refused(16);
    memset(routes, 0, ARRAY * LEVELS);
    for (uint32_t i = 0; i < count; i++) put_bytes(&settled[i], routes + ARRAY * i);
    return answered(count);
}

/* ---- the calls: picking */

/* the place of the first usable route of a list, counted from 1; 0 if there is none */
static uint32_t first_usable(const struct room *room, uint64_t source, uint64_t destination, const uint8_t *table,
                             const uint8_t *list, size_t list_len) {
    for (uint32_t i = 0; i < list_len / ARRAY; i++)
        if (!is_refused(check_routes(room, source, destination, table, list + ARRAY * i, 1))) return i + 1;
    return 0;
}

bcube_answer plain_pick(bcube_room value, uint64_t source, uint64_t destination, const uint8_t *table,
                        size_t table_len, const uint8_t *fresh, size_t fresh_len, const uint8_t *kept,
                        size_t kept_len) {
    struct room room;
    uint32_t why = enter(&room, value), place;
    if (!why) why = ends_refusal(&room, source, destination);
    if (!why) why = table_refusal(&room, table, table_len);
    if (!why) why = list_refusal(&room, fresh_len);
    if (!why) why = list_refusal(&room, kept_len);
    if (why) return refused(why);
    place = first_usable(&room, source, destination, table, fresh, fresh_len);
    if (place) return answered(256 * 1 + place);
    place = first_usable(&room, source, destination, table, kept, kept_len);
    if (place) return answered(256 * 2 + place);
    return refused(16);
}

/* ---- the calls: one forwarding step */

static bcube_stepped step_refused(uint32_t number, uint64_t hop) { return (bcube_stepped){number | hop << 8, 0}; }

bcube_stepped plain_step(bcube_room value, uint64_t here, uint64_t destination, uint64_t index, const uint8_t *path,
                         size_t path_len, const uint8_t *neighbours, size_t neighbours_len) {
    struct room room;
    uint32_t why = enter(&room, value);
    if (!why && (here >= room.servers || destination >= room.servers)) why = 4;
    if (!why && neighbours_len != 2048) why = 17;
    if (!why && path_len != ARRAY) why = 7;
    if (why) return step_refused(why, 0);
    if (here == destination) return (bcube_stepped){1 << 16, 0};
    if (index >= ARRAY) return step_refused(18, 0);
    uint32_t level = path[index] / 64, digit = path[index] % 64;
    struct place from = place_of(&room, here);
    if (level > room.k) return step_refused(8, index + 1);
    if (digit >= bound(&room, level)) return step_refused(9, index + 1);
    if (from.digit[level] == digit) return step_refused(10, index + 1);
    const uint8_t *entry = neighbours + 8 * path[index];
    if (entry[7] != 1) return step_refused(19, index + 1);
    struct place to = moved(from, level, digit);
    bcube_stepped step = {(index + 1) << 24 | (uint64_t)address_of(&room, &to) << 32 | (uint64_t)entry[6] << 48, 0};
    step.word |= (uint64_t)byte_to(&to, &from) << 56;
    for (uint32_t i = 0; i < 6; i++) step.mac = step.mac << 8 | entry[i];
    return step;
}

/* ---- the calls: spanning trees */

bcube_answer plain_parent(bcube_room value, uint64_t source, uint64_t tree, uint64_t server) {
    struct room room;
    uint32_t why = enter(&room, value);
    if (!why && (source >= room.servers || server >= room.servers)) why = 4;
    if (!why && tree > room.k) why = 20;
    if (!why && server == source) why = 5;
    if (why) return refused(why);
    return answered(tree_of(&room, source, tree)->parent[server]);
}

bcube_answer plain_tree(bcube_room value, uint64_t source, uint64_t tree, uint32_t parents[4096]) {
    struct room room;
    uint32_t why = enter(&room, value);
    if (!why && source >= room.servers) why = 4;
    if (!why && tree > room.k) why = 20;
    if (why) return refused(why);
    memcpy(parents, tree_of(&room, source, tree)->parent, sizeof(uint32_t) * room.servers);
    for (uint32_t i = room.servers; i < MOST_SERVERS; i++) parents[i] = 0;
    return answered(room.servers);
}
