/* A driver in small: one room, one failed link, and one packet brought from server 0 to server 7, with the trace that
 * it leaves; then a server dies, a packet goes around it, and the server comes back; then a planner hands in lists, and
 * is told by which hops they are refused; then a switch dies, and is named to the field crew; and last a file goes out to
 * all servers, in two parts by two trees.
 *
 * To build and run it on x86-64 Linux, from the root of the repository:
 *
 *     ./library target/bcube
 *     cc -static -Wall -Wextra -Werror -o target/driver examples/driver.c \
 *         $(PKG_CONFIG_PATH=target/bcube/lib/pkgconfig pkg-config --cflags --libs --static bcube)
 *     target/driver
 *
 * (tests/c/run does the same.) What each call takes and
 * answers stands in include/bcube.h; examples/driver.stdout is what the program prints. */
#include "bcube.h"

#include <stdio.h>
#include <stdlib.h>
#include <string.h>

/* The room: switches of 4 ports, levels 0 and 1, so 16 servers. Server 7 is written 13: digit 1 is 1, digit 0 is 3.
 * (The half-filled room bcube_filled_room(N, K, 2) has the servers 0 to 7: with SERVERS 8 the program runs there too.) */
enum { N = 4, K = 1, SERVERS = 16, SOURCE = 0, DESTINATION = 7 };
static bcube_room room;

/* Which links are failed: a byte for each server, at first all live. Beside it how many of them at each switch: a byte
 * for each switch, those of level 0 first, at first all zero. Each mark and each clear is given both. */
static uint8_t failed[SERVERS], summary[BCUBE_MOST_SWITCHES];
static size_t switches; /* of all levels: the length of the summary */

/* What each server knows of its neighbours. In a room each server has only its own; here they stand together. */
static uint8_t neighbours[SERVERS][BCUBE_NEIGHBOUR_TABLE_BYTES];

static void print_refusal(bcube_answer answer) {
    printf("refused %u at route %u, hop %u: %s\n", bcube_refusal(answer), bcube_route(answer), bcube_hop(answer),
           bcube_refusal_text(bcube_refusal(answer)));
}

/* The value of an answer. A refusal that this program does not expect ends it. */
static uint32_t granted(bcube_answer answer) {
    if (bcube_refusal(answer) == BCUBE_NOT_REFUSED) return bcube_value(answer);
    print_refusal(answer);
    exit(1);
}

/* Prints a route as the servers that it meets. */
static void print_route(uint32_t source, uint32_t destination, const uint8_t *path) {
    uint64_t met[BCUBE_ROUTE_SERVERS];
    uint32_t count = granted(bcube_read(room, source, destination, path, BCUBE_PATH_BYTES, met));
    for (uint32_t i = 0; i < count; i++) printf("%s%u", i == 0 ? "  " : " -> ", (unsigned)met[i]);
    printf("\n");
}

/* Selects routes around the links that are failed now; gives how many bytes of the list they are. */
static size_t select_routes(uint8_t list[BCUBE_LIST_BYTES]) {
    uint32_t count = granted(bcube_select(room, SOURCE, DESTINATION, failed, SERVERS, list));
    printf("%u routes from %d to %d:\n", count, SOURCE, DESTINATION);
    for (uint32_t i = 0; i < count; i++) print_route(SOURCE, DESTINATION, list + BCUBE_PATH_BYTES * i);
    return (size_t)BCUBE_PATH_BYTES * count;
}

/* The server that a hop of a path leads to, counted from 1; hop 0 is the source. */
static uint32_t server_after(const uint8_t *path, uint32_t hop) {
    uint32_t here = SOURCE;
    for (uint32_t i = 0; i < hop; i++) {
        bcube_answer taken = bcube_hop_of(room, here, path[i]);
        granted(taken);
        here = bcube_hop_next(taken);
    }
    return here;
}

/* Says by which two hops the routes of a list meet, or one comes to a server again or by a switch. No other refusal names
 * an earlier place. */
static void explain(const uint8_t *list, bcube_answer answer) {
    uint32_t route = bcube_route(answer), hop = bcube_hop(answer), earlier = bcube_earlier_hop(answer);
    switch (bcube_refusal(answer)) {
    case BCUBE_REFUSED_NOT_PARALLEL:
        printf("  route %u hop %u meets route %u hop %u\n", route, hop, bcube_earlier_route(answer), earlier);
        break;
    case BCUBE_REFUSED_SERVER_AGAIN:
        list += BCUBE_PATH_BYTES * (route - 1);
        printf("  route %u hop %u comes to server %u again, ", route, hop, server_after(list, hop));
        if (earlier == 0) printf("which is the source\n");
        else printf("where hop %u came\n", earlier);
        break;
    case BCUBE_REFUSED_SWITCH_AGAIN:
        printf("  route %u hop %u goes by the switch of hop %u again\n", route, hop, earlier);
        break;
    }
}

/* Says whether a list is still good under the failed links. */
static void check_routes(const char *name, const uint8_t *list, size_t bytes) {
    bcube_answer answer = bcube_check(room, SOURCE, DESTINATION, failed, SERVERS, list, bytes);
    printf("the %s list is ", name);
    if (bcube_refusal(answer) == BCUBE_NOT_REFUSED) {
        printf("accepted\n");
        return;
    }
    print_refusal(answer);
    explain(list, answer);
}

/* Whether a server's link at a level is live. The table was tested when the link was marked, so its bits may be
 * read here, without the test of the whole table that bcube_failed_link makes. */
static int live(uint32_t server, uint32_t level) { return !(failed[server] >> level & 1); }

/* The field crew's question: is a switch dead, and which? All its servers have then reported their link to it. */
static void name_dead_switch(void) {
    bcube_answer dead = bcube_dead_switch(room, failed, SERVERS, summary, switches);
    granted(dead);
    if (!bcube_dead_found(dead)) {
        printf("  no switch is dead\n");
        return;
    }
    uint32_t level = bcube_dead_level(dead), number = bcube_dead_number(dead);
    printf("  dead: switch %u of level %u, with the servers", number, level);
    for (uint32_t port = 0; port < granted(bcube_bound(room, level)); port++)
        printf(" %u", granted(bcube_server_at(room, level, number, port)));
    printf("\n");
}

/* A server's report that its link at a level is failed. */
static void report_link(uint32_t server, uint32_t level) {
    granted(bcube_mark(room, server, level, failed, SERVERS, summary, switches));
    printf("server %u reports its link at level %u\n", server, level);
    name_dead_switch();
}

/* Fills a server's neighbour table: for each neighbour an entry, at 8 times the path byte of the hop to it. */
static void fill_table(uint32_t server, uint8_t table[BCUBE_NEIGHBOUR_TABLE_BYTES]) {
    memset(table, 0, BCUBE_NEIGHBOUR_TABLE_BYTES);
    for (uint32_t level = 0; level <= K; level++)
        for (uint32_t value = 0; value < granted(bcube_bound(room, level)); value++) {
            uint32_t neighbour = granted(bcube_neighbour(room, server, level, value));
            if (neighbour == server) continue; /* the value is the server's own digit */
            uint8_t *entry = table + BCUBE_NEIGHBOUR_ENTRY_BYTES * granted(bcube_path_byte(room, level, value));
            entry[0] = 0x02; /* a made-up MAC: 02:00:00:00:00 and the server */
            entry[5] = (uint8_t)neighbour;
            entry[BCUBE_NEIGHBOUR_PORT] = (uint8_t)level; /* the server has a port for each level */
            entry[BCUBE_NEIGHBOUR_FLAG] = live(server, level) && live(neighbour, level) ? BCUBE_NEIGHBOUR_AVAILABLE : 0;
        }
}

/* Fills the tables of all servers, by the links as they are now. */
static void fill_tables(void) {
    for (uint32_t server = 0; server < SERVERS; server++) fill_table(server, neighbours[server]);
}

/* Prints the path by which a delivered packet can be answered: its trace read backwards, with zeros after. bcube_reverse
 * writes the same bytes from the packet's own path. */
static void print_way_back(const uint8_t trace[BCUBE_PATH_BYTES], uint32_t hops) {
    uint8_t back[BCUBE_PATH_BYTES] = {0};
    for (uint32_t i = 0; i < hops; i++) back[i] = trace[hops - 1 - i];
    printf("  the way back, by the trace:");
    for (uint32_t i = 0; i < BCUBE_PATH_BYTES; i++) printf(" %02x", back[i]);
    printf("\n");
    print_route(DESTINATION, SOURCE, back);
}

/* Brings one packet to its destination. The loop stands for the servers on the way: each makes one step. */
static void forward(const uint8_t path[BCUBE_PATH_BYTES]) {
    uint32_t here = SOURCE, index = 0; /* the index travels in the packet */
    uint8_t trace[BCUBE_PATH_BYTES];   /* of each step the level and the value that its hop replaced, as one byte */
    for (;;) {
        bcube_stepped step = bcube_step(room, here, DESTINATION, index, path, BCUBE_PATH_BYTES, neighbours[here],
                                        BCUBE_NEIGHBOUR_TABLE_BYTES);
        if (bcube_step_refusal(step) != BCUBE_NOT_REFUSED) {
            printf("  dropped at %u: refused %u at hop %u: %s\n", here, bcube_step_refusal(step), bcube_step_hop(step),
                   bcube_refusal_text(bcube_step_refusal(step)));
            return;
        }
        if (bcube_step_delivered(step)) {
            printf("  delivered at %u\n", here);
            print_way_back(trace, index);
            return;
        }
        printf("  %u sends it out of port %u to ", here, bcube_step_port(step));
        for (unsigned i = 0; i < 6; i++) printf("%s%02x", i == 0 ? "" : ":", bcube_mac_byte(step.mac, i));
        printf(", which is server %u\n", bcube_step_next(step));
        printf("    trace: server %u, level %u, old value %u\n", here, bcube_step_level(step), bcube_step_old(step));
        trace[index] = bcube_step_back(step);
        here = bcube_step_next(step);
        index = bcube_step_index(step);
    }
}

/* Lists that a planner made. Each is tested before a packet goes by it, and a refusal says what to mend. */
static void check_planned(void) {
    static const uint8_t sharing[2 * BCUBE_PATH_BYTES] = {0x41, 0x03, 0, 0, 0, 0, 0, 0, 0x02, 0x41, 0x03};
    static const uint8_t doubled[2 * BCUBE_PATH_BYTES] = {0x41, 0x03, 0, 0, 0, 0, 0, 0, 0x01, 0x41, 0x02, 0x40, 0x03, 0x41};
    static const uint8_t returning[BCUBE_PATH_BYTES] = {0x01, 0x41, 0x00, 0x40, 0x03, 0x41};
    check_routes("first", sharing, sizeof sharing);
    check_routes("second", doubled, sizeof doubled);
    check_routes("third", returning, sizeof returning);
}

/* How many parts of the file each server has been handed, and how many went by each hop. */
static uint32_t parts[SERVERS], carried[SERVERS][SERVERS];

/* What a server does with a part that it has: it hands it to each neighbour whose parent it is in the tree of the part.
 * Here the neighbour's turn comes at once. */
static void hand_on(uint32_t here, uint32_t part) {
    for (uint32_t level = 0; level <= K; level++)
        for (uint32_t value = 0; value < granted(bcube_bound(room, level)); value++) {
            uint32_t next = granted(bcube_neighbour(room, here, level, value));
            if (next == here || next == SOURCE) continue; /* the source has no parent */
            if (granted(bcube_parent(room, SOURCE, part, next)) != here) continue;
            parts[next]++;
            carried[here][next]++;
            hand_on(next, part);
        }
}

/* Brings a file to all servers, part 0 by tree 0 and so on. The tables of parents are for the eye: no server needs them. */
static void roll_out(void) {
    static uint32_t parents[BCUBE_TREE_NUMBERS];
    uint32_t whole = 0, hops = 0, most = 0;
    for (uint32_t part = 0; part <= K; part++) {
        uint32_t count = granted(bcube_tree(room, SOURCE, part, parents));
        printf("  part %u, each server's parent:", part);
        for (uint32_t i = 0; i < count; i++)
            if (parents[i] == BCUBE_NO_PARENT) printf(" -");
            else printf(" %u", parents[i]);
        printf("\n");
        hand_on(SOURCE, part);
    }
    for (uint32_t a = 0; a < SERVERS; a++) {
        whole += parts[a] == K + 1;
        for (uint32_t b = 0; b < SERVERS; b++) {
            hops += carried[a][b] != 0;
            if (carried[a][b] > most) most = carried[a][b];
        }
    }
    printf("  %u servers were handed the whole file, by %u hops; the most parts by one hop: %u\n", whole, hops, most);
}

int main(void) {
    uint8_t kept[BCUBE_LIST_BYTES], fresh[BCUBE_LIST_BYTES];
    if (bcube_version() / 10000 != BCUBE_VERSION / 10000) return 1; /* another library than the header's */
    room = bcube_room_of(N, K);
    for (uint32_t level = 0; level <= K; level++) switches += granted(bcube_switches(room, level));
    printf("a room of %u servers and %u switches, all links live\n", granted(bcube_servers(room)), (unsigned)switches);
    size_t kept_bytes = select_routes(kept);

    printf("\nserver 3 reports that its link at level 1 is failed\n");
    granted(bcube_mark(room, 3, 1, failed, SERVERS, summary, switches));
    check_routes("kept", kept, kept_bytes);
    size_t fresh_bytes = select_routes(fresh);
    check_routes("fresh", fresh, fresh_bytes);

    /* the packet goes by the first usable route of the fresh list, or else of the kept one */
    bcube_answer picked = bcube_pick(room, SOURCE, DESTINATION, failed, SERVERS, fresh, fresh_bytes, kept, kept_bytes);
    granted(picked);
    const uint8_t *list = bcube_pick_list(picked) == BCUBE_FRESH ? fresh : kept;
    const uint8_t *path = list + bcube_pick_offset(picked);
    printf("\npicked: route %u of the %s list\n", bcube_pick_route(picked), list == fresh ? "fresh" : "kept");

    fill_tables();
    forward(path);

    printf("\nthe same packet by the broken route that was kept\n");
    forward(kept + BCUBE_PATH_BYTES);

    printf("\nserver 4 is dead\n");
    granted(bcube_mark_all(room, 4, failed, SERVERS, summary, switches));
    select_routes(fresh);
    printf("a packet by the first of them\n");
    fill_tables();
    forward(fresh);
    printf("servers 3 and 4 are whole again\n");
    granted(bcube_clear_all(room, 3, failed, SERVERS, summary, switches));
    granted(bcube_clear_all(room, 4, failed, SERVERS, summary, switches));
    check_routes("kept", kept, kept_bytes);

    printf("\na planner hands in three lists\n");
    check_planned();

    printf("\nthe links to switch 1 of level 1 fail, one after the other\n");
    report_link(1, 1); /* this report comes twice, and counts once */
    for (uint32_t port = 0; port < granted(bcube_bound(room, 1)); port++)
        report_link(granted(bcube_server_at(room, 1, 1, port)), 1);
    printf("server 5 is whole again\n");
    granted(bcube_clear(room, 5, 1, failed, SERVERS, summary, switches));
    name_dead_switch();

    printf("\na table that another program wrote comes without its summary\n");
    memset(failed, 1, 4);
    print_refusal(bcube_dead_switch(room, failed, SERVERS, summary, switches));
    granted(bcube_summarize(room, failed, SERVERS, summary, switches)); /* so it is counted afresh */
    name_dead_switch();

    printf("\nserver %d sends a file to all others, in %d parts\n", SOURCE, K + 1);
    roll_out();
    return 0;
}
