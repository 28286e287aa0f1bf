/* What kinds of 15, 28 and 29 the questions meet. Each kind is one that another rule would answer otherwise, though it
 * is nearly the same: 29 tried before 28, the source forgotten, a hop too many or too few, 13 before either; a meeting
 * looked for at switches alone, at servers alone, at all switches before the servers, by the later route's hop first, or
 * in another order of the pairs. The ways of the question are gone hop by hop, by the plain calls for one hop, for two
 * servers and for one switch, and held against each other as numbers. */
#include "kinds.h"

#include "plain.h"

#include <stdio.h>

enum { MOST_HOPS = 8, ARRAY = 8 };

/* ---- the kinds, and how often each call met them */

enum kind {
    SOURCE_AGAIN, ANOTHER_AGAIN, BY_NEW_SWITCH, BY_USED_SWITCH, SERVER_AT_HOP_8,
    SWITCH_OF_HOP_1, SWITCH_OF_LATER_HOP, SWITCH_AT_HOP_8,
    LATER_ARRAY,
    SHARE_SWITCHES, SHARE_SERVERS, SHARE_BOTH,
    FIRST_AT_SWITCH, FIRST_AT_SERVER, FIRST_AT_BOTH,
    SWITCHES_FIRST, LATER_HOP_FIRST, LATER_ROUTE_FIRST,
    KINDS
};

static const char *const named[KINDS] = {
    [SOURCE_AGAIN] = "28: the source again, hop 0",
    [ANOTHER_AGAIN] = "28: another server again",
    [BY_NEW_SWITCH] = "28: by a new switch",
    [BY_USED_SWITCH] = "28: by a switch used before",
    [SERVER_AT_HOP_8] = "28: at hop 8",
    [SWITCH_OF_HOP_1] = "29: the switch of hop 1",
    [SWITCH_OF_LATER_HOP] = "29: the switch of a later hop",
    [SWITCH_AT_HOP_8] = "29: at hop 8",
    [LATER_ARRAY] = "28 or 29: in a later array",
    [SHARE_SWITCHES] = "15: the two share switches alone",
    [SHARE_SERVERS] = "15: the two share servers alone",
    [SHARE_BOTH] = "15: the two share both",
    [FIRST_AT_SWITCH] = "15: they first meet at a switch alone",
    [FIRST_AT_SERVER] = "15: they first meet at a server alone",
    [FIRST_AT_BOTH] = "15: they first meet at both",
    [SWITCHES_FIRST] = "15: not where they first share a switch",
    [LATER_HOP_FIRST] = "15: not the later route's first hop",
    [LATER_ROUTE_FIRST] = "15: not the pair of the first later route",
};

static const enum call counted[] = {READ, WRITE, REVERSE, CHECK};
enum { COUNTED = sizeof counted / sizeof *counted };
static unsigned long count[KINDS][CALLS], hops_that_do_not_meet;

/* lists are only checked */
static int can_meet(enum call call, enum kind kind) { return call == CHECK || kind < LATER_ARRAY; }

/* ---- ways */

/* the server of hop h at place h, the source at place 0; and the switch that hop h uses, its level and its number */
struct way {
    uint32_t hops;
    uint64_t server[MOST_HOPS + 1], used[MOST_HOPS + 1];
};

static struct way from(uint64_t source) { return (struct way){.server = {source}}; }

static void go(struct way *way, bcube_room room, uint64_t server, uint64_t level) {
    uint32_t number = bcube_value(plain_switch(room, server, level));
    way->hops++;
    way->server[way->hops] = server;
    way->used[way->hops] = level << 32 | number;
}

/* by the bytes of an array, so many hops or to the destination; none of them is refused by itself */
static struct way by_bytes(bcube_room room, uint64_t source, uint64_t destination, const uint8_t *array, uint32_t hops) {
    struct way way = from(source);
    while (way.hops < hops && (way.hops == 0 || way.server[way.hops] != destination)) {
        bcube_answer hop = plain_hop_of(room, way.server[way.hops], array[way.hops]);
        go(&way, room, bcube_hop_next(hop), bcube_hop_level(hop));
    }
    return way;
}

/* to one server after another */
static struct way by_servers(bcube_room room, const uint64_t *servers, uint32_t hops) {
    struct way way = from(servers[0]);
    while (way.hops < hops) {
        uint64_t next = servers[way.hops + 1];
        go(&way, room, next, bcube_value(plain_between(room, way.server[way.hops], next)) - 1);
    }
    return way;
}

/* ---- 28 and 29 */

/* how many hops before this one came to its server, the source among them, */
static uint32_t times_met(const struct way *way, uint32_t hop) {
    uint32_t times = 0;
    for (uint32_t i = 0; i < hop; i++) times += way->server[i] == way->server[hop];
    return times;
}

/* and how many used its switch */
static uint32_t times_used(const struct way *way, uint32_t hop) {
    uint32_t times = 0;
    for (uint32_t i = 1; i < hop; i++) times += way->used[i] == way->used[hop];
    return times;
}

/* the way up to the refused hop */
static struct way tried(const struct question *q, bcube_answer refused) {
    uint32_t route = bcube_route(refused), hop = bcube_hop(refused);
    if (q->call == WRITE) return by_servers(q->room, q->lent[0].at, hop);
    const uint8_t *arrays = q->lent[q->call == CHECK ? 1 : 0].at;
    return by_bytes(q->room, q->number[0], UINT64_MAX, arrays + ARRAY * (route - 1), hop);
}

static void count_server_again(const struct question *q, bcube_answer refused) {
    uint32_t hop = bcube_hop(refused), earlier = bcube_earlier_hop(refused);
    struct way way = tried(q, refused);
    if (earlier >= hop || way.server[earlier] != way.server[hop] || times_met(&way, hop) != 1) hops_that_do_not_meet++;
    count[earlier == 0 ? SOURCE_AGAIN : ANOTHER_AGAIN][q->call]++;
    count[times_used(&way, hop) ? BY_USED_SWITCH : BY_NEW_SWITCH][q->call]++;
    if (hop == MOST_HOPS) count[SERVER_AT_HOP_8][q->call]++;
}

static void count_switch_again(const struct question *q, bcube_answer refused) {
    uint32_t hop = bcube_hop(refused), earlier = bcube_earlier_hop(refused);
    struct way way = tried(q, refused);
    if (earlier == 0 || earlier >= hop || way.used[earlier] != way.used[hop] || times_used(&way, hop) != 1 ||
        times_met(&way, hop) != 0)
        hops_that_do_not_meet++;
    count[earlier == 1 ? SWITCH_OF_HOP_1 : SWITCH_OF_LATER_HOP][q->call]++;
    if (hop == MOST_HOPS) count[SWITCH_AT_HOP_8][q->call]++;
}

/* ---- 15 */

/* what hops of two ways have in common: 1 for a switch, 2 for a server that is no end, 3 for both */
static int common(const struct way *one, uint32_t hop, const struct way *other, uint32_t other_hop) {
    int server = one->server[hop] == other->server[other_hop] && hop < one->hops && other_hop < other->hops;
    return (one->used[hop] == other->used[other_hop]) | server << 1;
}

/* of all hops of two ways: what they have in common anywhere; and where they first do, by the first way's hop, by the
 * later way's hop, and at a switch; each as 16 times the first way's hop plus the later one's, and 0 if nowhere */
struct shared {
    int anywhere;
    uint32_t by_first, by_later, at_switch;
};

static struct shared share(const struct way *one, const struct way *other) {
    struct shared all = {0, 0, 0, 0};
    for (uint32_t later = 1; later <= other->hops; later++)
        for (uint32_t hop = 1; hop <= one->hops; hop++) {
            int here = common(one, hop, other, later);
            uint32_t place = 16 * hop + later;
            if (here == 0) continue;
            if (all.by_later == 0) all.by_later = place;
            if (all.by_first == 0 || place < all.by_first) all.by_first = place;
            if ((here & 1) != 0 && (all.at_switch == 0 || place < all.at_switch)) all.at_switch = place;
            all.anywhere |= here;
        }
    return all;
}

static struct way listed(const struct question *q, uint32_t route) {
    const uint8_t *list = q->lent[1].at;
    return by_bytes(q->room, q->number[0], q->number[1], list + ARRAY * (route - 1), MOST_HOPS);
}

/* whether a pair before this one meets, in the order by the later route, then by the first */
static int met_before(const struct question *q, uint32_t first, uint32_t later) {
    for (uint32_t j = 2; j <= later; j++)
        for (uint32_t i = 1; i < (j < later ? j : first); i++) {
            struct way one = listed(q, i), other = listed(q, j);
            if (share(&one, &other).anywhere) return 1;
        }
    return 0;
}

static void count_meeting(const struct question *q, bcube_answer refused) {
    uint32_t first = bcube_earlier_route(refused), later = bcube_route(refused);
    uint32_t hop = bcube_earlier_hop(refused), later_hop = bcube_hop(refused);
    struct way one = listed(q, first), other = listed(q, later);
    struct shared all = share(&one, &other);
    if (all.anywhere == 0 || all.by_first != 16 * hop + later_hop) {
        hops_that_do_not_meet++;
        return;
    }
    count[SHARE_SWITCHES + all.anywhere - 1][CHECK]++;
    count[FIRST_AT_SWITCH + common(&one, hop, &other, later_hop) - 1][CHECK]++;
    if (all.at_switch != 0 && all.at_switch != all.by_first) count[SWITCHES_FIRST][CHECK]++;
    if (all.by_later != all.by_first) count[LATER_HOP_FIRST][CHECK]++;
    if (met_before(q, first, later)) count[LATER_ROUTE_FIRST][CHECK]++;
}

/* ---- counting and printing */

void count_kinds(const struct question *q, answer given) {
    bcube_answer word = {given.word};
    uint32_t number = bcube_refusal(word);
    if (q->call < READ || q->call > CHECK) return;
    if (number == BCUBE_REFUSED_SERVER_AGAIN) count_server_again(q, word);
    else if (number == BCUBE_REFUSED_SWITCH_AGAIN) count_switch_again(q, word);
    else if (number == BCUBE_REFUSED_NOT_PARALLEL) count_meeting(q, word);
    else return;
    if (number != BCUBE_REFUSED_NOT_PARALLEL && bcube_route(word) > 1) count[LATER_ARRAY][q->call]++;
}

int print_kinds(void) {
    int amiss = hops_that_do_not_meet != 0;
    printf("%-42s %10s %10s %10s %10s\n", "of 28, 29 and 15", "read", "write", "reverse", "check");
    for (int kind = 0; kind < KINDS; kind++) {
        printf("%-42s", named[kind]);
        for (int i = 0; i < COUNTED; i++) {
            if (!can_meet(counted[i], (enum kind)kind)) {
                printf(" %10s", "");
                continue;
            }
            printf(" %10lu", count[kind][counted[i]]);
            if (count[kind][counted[i]] >= LEAST) continue;
            printf(" (fewer than %d)", LEAST);
            amiss++;
        }
        printf("\n");
    }
    if (hops_that_do_not_meet) printf("%lu of these name hops that do not meet\n", hops_that_do_not_meet);
    return amiss;
}
