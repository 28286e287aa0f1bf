/* A program of a user, as C99 and as C++17: every call and every accessor of the header once, over the library as
 * it is installed. Prints the version; status 1 if an answer is not the one worked by hand. */
#include "bcube.h"

#include <stdio.h>
#include <string.h>

static int wrong;

static void holds(int so, const char *what) {
    if (so) return;
    printf("wrong: %s\n", what);
    wrong = 1;
}

static void rooms(bcube_room room) {
    uint64_t digits[4];
    holds(bcube_refusal(bcube_shape(room)) == BCUBE_NOT_REFUSED, "shape");
    holds(bcube_value(bcube_servers(room)) == BCUBE_MOST_SERVERS, "servers");
    holds(bcube_value(bcube_bound(room, 1)) == 8, "bound");
    holds(bcube_value(bcube_switches(room, 1)) == 512, "switches");
    holds(bcube_refusal(bcube_digits(room, 521, digits)) == BCUBE_NOT_REFUSED && digits[3] == 1, "digits");
    holds(bcube_value(bcube_digit(room, 521, 1)) == 1, "digit");
    holds(bcube_value(bcube_address(room, 1, 1, 0, 1)) == 521, "address");
    holds(bcube_value(bcube_switch(room, 521, 1)) == 65, "switch");
    holds(bcube_value(bcube_server_at(room, 1, 65, 1)) == 521, "server_at");
    holds(bcube_value(bcube_neighbour(room, 521, 1, 0)) == 513, "neighbour");
    holds(bcube_value(bcube_between(room, 521, 513)) == 2, "between");
    holds(bcube_refusal(bcube_digit(room, (UINT64_C(1) << 32) + 1, 0)) == BCUBE_REFUSED_ADDRESS, "a number is cut");
    holds(bcube_refusal(bcube_shape(bcube_room_of(UINT64_C(1) << 32 | 8, 3))) == BCUBE_REFUSED_PORTS, "n is cut");
    holds(bcube_refusal(bcube_shape(bcube_room_of(8, 256))) == BCUBE_REFUSED_LEVELS, "k is cut");
    holds(bcube_refusal(bcube_shape(bcube_filled_room(8, 3, UINT64_C(1) << 32 | 8))) == BCUBE_REFUSED_FILL, "m is cut");
}

static void half_filled(bcube_room room) {
    holds(bcube_value(bcube_servers(room)) == 2048, "servers of a half-filled room");
    holds(bcube_value(bcube_bound(room, 2)) == 8 && bcube_value(bcube_bound(room, 3)) == 4, "its bounds");
    holds(bcube_value(bcube_switches(room, 2)) == 256 && bcube_value(bcube_switches(room, 3)) == 512, "its switches");
    holds(bcube_refusal(bcube_address(room, 0, 0, 0, 4)) == BCUBE_REFUSED_DIGIT, "a digit that is not below m");
    holds(bcube_refusal(bcube_shape(bcube_filled_room(8, 3, BCUBE_LEAST_FILL))) == BCUBE_NOT_REFUSED, "the least fill");
    holds(bcube_refusal(bcube_shape(bcube_filled_room(8, 3, BCUBE_LEAST_FILL - 1))) == BCUBE_REFUSED_FILL, "below the least fill");
    holds(bcube_filled_room(8, 3, 8).number == bcube_room_of(8, 3).number, "a full room");
    holds(bcube_room_of(8, 3).number == 8 + 256 * 3 + 65536 * 8, "its number");
}

static void links(bcube_room room) {
    static uint8_t table[BCUBE_MOST_SERVERS], summary[BCUBE_MOST_SWITCHES];
    const size_t t = sizeof table, s = 2048; /* 512 switches a level */
    holds(!bcube_refusal(bcube_mark(room, 521, 1, table, t, summary, s)) && summary[577] == 1, "mark");
    holds(bcube_value(bcube_failed_link(room, 521, 1, table, t)) == 1, "failed_link");
    holds(!bcube_refusal(bcube_clear(room, 521, 1, table, t, summary, s)) && summary[577] == 0, "clear");
    holds(!bcube_refusal(bcube_mark_all(room, 7, table, t, summary, s)) && table[7] == 15, "mark_all");
    holds(summary[0] == 1 && summary[519] == 1 && summary[1031] == 1 && summary[1543] == 1, "the entries of a server");
    holds(!bcube_refusal(bcube_clear_all(room, 7, table, t, summary, s)) && table[7] == 0, "clear_all");
    holds(bcube_refusal(bcube_mark_all(room, 7, NULL, 0, summary, s)) == BCUBE_REFUSED_TABLE, "no table");
    holds(bcube_refusal(bcube_mark_all(room, 7, table, t, NULL, 0)) == BCUBE_REFUSED_SUMMARY, "no summary");
    holds(bcube_refusal(bcube_mark(room, 7, 0, table, t, summary, s + 1)) == BCUBE_REFUSED_SUMMARY, "a longer summary");
}

static void switches(bcube_room room) {
    static uint8_t table[BCUBE_MOST_SERVERS], summary[BCUBE_MOST_SWITCHES];
    const size_t t = sizeof table, s = 2048;
    bcube_answer dead = bcube_dead_switch(room, table, t, summary, s);
    holds(bcube_refusal(dead) == BCUBE_NOT_REFUSED && !bcube_dead_found(dead), "dead_switch, none");
    for (size_t port = 0; port < 8; port++) table[64 * 8 + 8 * port + 1] = 2; /* the servers of switch 65 at level 1 */
    dead = bcube_dead_switch(room, table, t, summary, s);
    holds(bcube_refusal(dead) == BCUBE_REFUSED_SUMMARY && !bcube_dead_found(dead), "a table without its summary");
    holds(!bcube_refusal(bcube_summarize(room, table, t, summary, s)) && summary[577] == 8, "summarize");
    dead = bcube_dead_switch(room, table, t, summary, s);
    holds(bcube_dead_found(dead) && bcube_dead_level(dead) == 1 && bcube_dead_number(dead) == 65, "dead_switch");
    for (size_t port = 0; port < 8; port++) table[port] = 1; /* those of switch 0 at level 0 */
    holds(!bcube_refusal(bcube_summarize(room, table, t, summary, s)) && summary[0] == 8, "summarize");
    dead = bcube_dead_switch(room, table, t, summary, s);
    holds(bcube_dead_found(dead) && !bcube_dead_level(dead) && !bcube_dead_number(dead), "the first dead switch");
}

/* a hop by itself, and back again; a hop that is refused */
static void hops(bcube_room room) {
    bcube_answer hop = bcube_hop_of(room, 4095, 0x83), back = bcube_hop_of(room, 3839, bcube_hop_back(hop));
    holds(bcube_refusal(hop) == BCUBE_NOT_REFUSED && bcube_hop_next(hop) == 3839, "hop_of");
    holds(bcube_hop_level(hop) == 2 && bcube_hop_old(hop) == 7 && bcube_hop_back(hop) == 0x87, "what a hop leaves behind");
    holds(bcube_hop_next(back) == 4095 && bcube_hop_old(back) == 3 && bcube_hop_back(back) == 0x83, "the way back");
    hop = bcube_hop_of(room, 1, 0x01);
    holds(bcube_refusal(hop) == BCUBE_REFUSED_NO_CHANGE && bcube_route(hop) == 1 && bcube_hop(hop) == 1, "a hop to where it starts");
    holds(!bcube_hop_next(hop) && !bcube_hop_level(hop) && !bcube_hop_old(hop) && !bcube_hop_back(hop), "zeros on a refusal");
    hop = bcube_hop_of(room, 1, (UINT64_C(1) << 32) + 0xc1);
    holds(bcube_refusal(hop) == BCUBE_REFUSED_POSITION, "a path byte is cut");
}

static void paths(bcube_room room) {
    static const uint8_t table[BCUBE_MOST_SERVERS] = {0};
    uint8_t list[BCUBE_LIST_BYTES], path[BCUBE_PATH_BYTES];
    uint64_t servers[BCUBE_ROUTE_SERVERS];
    bcube_answer parts = bcube_path_byte_parts(room, 0xc1);
    holds(bcube_value(bcube_path_byte(room, 3, 1)) == 0xc1, "path_byte");
    holds(bcube_byte_level(parts) == 3 && bcube_byte_value(parts) == 1, "path_byte_parts");
    holds(bcube_value(bcube_build(room, 1, 521, list)) == 4, "build");
    holds(bcube_value(bcube_read(room, 1, 521, list, BCUBE_PATH_BYTES, servers)) == 3, "read");
    holds(bcube_refusal(bcube_write(room, servers, 3, path)) == BCUBE_NOT_REFUSED && !memcmp(path, list, 8), "write");
    holds(bcube_refusal(bcube_reverse(room, 1, 521, list, BCUBE_PATH_BYTES, path)) == BCUBE_NOT_REFUSED && path[0] == 0x40, "reverse");
    holds(bcube_refusal(bcube_check(room, 1, 521, table, sizeof table, list, sizeof list)) == BCUBE_NOT_REFUSED, "check");
    holds(bcube_value(bcube_find(room, 1, 521, table, sizeof table, path)) == 2, "find");
    holds(bcube_value(bcube_select(room, 1, 521, table, sizeof table, list)) == 4, "select");
    bcube_answer picked = bcube_pick(room, 1, 521, table, sizeof table, NULL, 0, list, sizeof list);
    holds(bcube_pick_list(picked) == BCUBE_KEPT && bcube_pick_route(picked) == 1 && bcube_pick_offset(picked) == 0, "pick");
    list[0] = 8;
    bcube_answer refused = bcube_read(room, 1, 521, list, BCUBE_PATH_BYTES, servers);
    holds(bcube_refusal(refused) == BCUBE_REFUSED_VALUE && bcube_route(refused) == 1 && bcube_hop(refused) == 1, "a refusal");
    holds(!bcube_earlier_route(refused) && !bcube_earlier_hop(refused), "a refusal that names no earlier place");
    holds(BCUBE_FRESH != BCUBE_KEPT, "lists");
}

/* 28, 29 and 15, with the earlier place that each names: arrays from server 0 to server 27, of digits 3 and 3 */
static void again(bcube_room room) {
    static const uint8_t table[BCUBE_MOST_SERVERS] = {0};
    static const uint8_t source_again[BCUBE_PATH_BYTES] = {0x01, 0x41, 0x00, 0x40, 0x43};
    static const uint8_t switch_again[BCUBE_PATH_BYTES] = {0x43, 0x01, 0x03};
    static const uint8_t list[2 * BCUBE_PATH_BYTES] = {0x43, 0x03, 0, 0, 0, 0, 0, 0, 0x02, 0x43, 0x03};
    uint64_t servers[BCUBE_ROUTE_SERVERS];
    bcube_answer refused = bcube_read(room, 0, 27, source_again, BCUBE_PATH_BYTES, servers);
    holds(bcube_refusal(refused) == BCUBE_REFUSED_SERVER_AGAIN && bcube_route(refused) == 1 && bcube_hop(refused) == 4, "28");
    holds(bcube_earlier_route(refused) == 0 && bcube_earlier_hop(refused) == 0, "the source is hop 0");
    refused = bcube_read(room, 0, 27, switch_again, BCUBE_PATH_BYTES, servers);
    holds(bcube_refusal(refused) == BCUBE_REFUSED_SWITCH_AGAIN && bcube_route(refused) == 1 && bcube_hop(refused) == 3, "29");
    holds(bcube_earlier_route(refused) == 0 && bcube_earlier_hop(refused) == 2, "the hop that used the switch");
    refused = bcube_check(room, 0, 27, table, sizeof table, list, sizeof list);
    holds(bcube_refusal(refused) == BCUBE_REFUSED_NOT_PARALLEL && bcube_route(refused) == 2 && bcube_hop(refused) == 3, "15");
    holds(bcube_earlier_route(refused) == 1 && bcube_earlier_hop(refused) == 2 && !bcube_value(refused), "the first route and its hop");
}

static void steps(bcube_room room) {
    static uint8_t neighbours[BCUBE_NEIGHBOUR_TABLE_BYTES];
    static const uint8_t path[BCUBE_PATH_BYTES] = {0xc1, 0x41};
    uint8_t *entry = neighbours + BCUBE_NEIGHBOUR_ENTRY_BYTES * 0xc1;
    memcpy(entry, "\2\3\4\5\6\7", 6);
    entry[BCUBE_NEIGHBOUR_PORT] = 3;
    bcube_stepped step = bcube_step(room, 1, 521, 0, path, sizeof path, neighbours, sizeof neighbours);
    holds(bcube_step_refusal(step) == BCUBE_REFUSED_UNAVAILABLE && bcube_step_route(step) == 1 && bcube_step_hop(step) == 1, "19");
    entry[BCUBE_NEIGHBOUR_FLAG] = BCUBE_NEIGHBOUR_AVAILABLE;
    step = bcube_step(room, 1, 521, 0, path, sizeof path, neighbours, sizeof neighbours);
    holds(bcube_step_next(step) == 513 && bcube_step_index(step) == 1 && bcube_step_port(step) == 3, "step");
    holds(bcube_step_level(step) == 3 && bcube_step_old(step) == 0 && bcube_step_back(step) == 0xc0, "what a step leaves behind");
    holds(bcube_mac_byte(step.mac, 0) == 2 && bcube_mac_byte(step.mac, 5) == 7, "mac_byte");
    holds(bcube_mac_byte(step.mac, 6) == 0 && bcube_mac_byte(step.mac, (uint64_t)1 << 32) == 0 && bcube_mac_byte(step.mac, UINT64_MAX) == 0, "mac_byte is total");
    step = bcube_step(room, 521, 521, 9, path, sizeof path, neighbours, sizeof neighbours);
    holds(bcube_step_delivered(step) && !bcube_step_level(step) && !bcube_step_old(step) && !bcube_step_back(step), "delivered");
}

/* the parents of server 4 in the two trees of server 0 of a room of 16 servers, and of all servers in the first */
static void trees(bcube_room room) {
    static uint32_t parents[BCUBE_TREE_NUMBERS];
    holds(bcube_value(bcube_parent(room, 0, 0, 4)) == 7 && bcube_value(bcube_parent(room, 0, 1, 4)) == 0, "parent");
    holds(bcube_refusal(bcube_parent(room, 4, 0, 4)) == BCUBE_REFUSED_SAME_ENDS, "the source has no parent");
    holds(bcube_refusal(bcube_parent(room, 0, (uint64_t)1 << 32, 4)) == BCUBE_REFUSED_LEVEL, "a tree is cut");
    parents[15] = 99;
    holds(bcube_refusal(bcube_tree(room, 0, 2, parents)) == BCUBE_REFUSED_LEVEL && parents[15] == 99, "no such tree");
    holds(bcube_value(bcube_tree(room, 0, 0, parents)) == 16 && parents[4] == 7 && parents[15] == 11, "tree");
    holds(parents[0] == BCUBE_NO_PARENT, "what stands for the source");
    holds(parents[16] == 0 && parents[BCUBE_TREE_NUMBERS - 1] == 0, "past the last server");
}

/* every number has a sentence of its own, and every other number, 12 too, which is retired, one that says so */
static void texts(void) {
    const char *none = bcube_refusal_text(UINT64_MAX);
    for (uint64_t i = 0; i < 256; i++) {
        int given = (i <= BCUBE_REFUSED_NOT_NEIGHBOURS && i != 12) || i == BCUBE_REFUSED_FILL || i == BCUBE_REFUSED_SERVER_AGAIN ||
                    i == BCUBE_REFUSED_SWITCH_AGAIN || i == BCUBE_REFUSED_SUMMARY;
        holds((strcmp(bcube_refusal_text(i), none) != 0) == given, "a number without a text, or a text too many");
        for (uint64_t j = 0; j < i && given; j++) holds(strcmp(bcube_refusal_text(i), bcube_refusal_text(j)) != 0, "two texts are the same");
    }
}

int main(void) {
    bcube_room room = bcube_room_of(8, BCUBE_MOST_LEVEL);
    rooms(room);
    half_filled(bcube_filled_room(8, BCUBE_MOST_LEVEL, 4));
    links(room);
    switches(room);
    hops(room);
    paths(room);
    again(room);
    steps(room);
    trees(bcube_room_of(4, 1));
    texts();
    holds(bcube_version() == BCUBE_VERSION, "another version than the header's");
    holds(BCUBE_FEWEST_PORTS == 2 && BCUBE_MOST_PORTS == 64 && BCUBE_MOST_HOPS == 8, "limits");
    printf("%d.%d.%d\n", BCUBE_VERSION / 10000, BCUBE_VERSION / 100 % 100, BCUBE_VERSION % 100);
    return wrong;
}
