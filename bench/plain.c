#include "plain.h"

#include <string.h>

static uint64_t mac_at(const uint8_t *entry) {
    uint32_t first = (uint32_t)entry[0] << 24 | (uint32_t)entry[1] << 16 | (uint32_t)entry[2] << 8 | entry[3];
    uint32_t last = (uint32_t)entry[4] << 8 | entry[5];
    return (uint64_t)first << 16 | last;
}

static bcube_stepped refused(uint64_t word) { return (bcube_stepped){word, 0}; }

/* back is the path byte of the way back */
static bcube_stepped taken(uint32_t next, uint64_t index, const uint8_t *entry, uint32_t back) {
    uint64_t word = index << 24 | (uint64_t)next << 32 | (uint64_t)entry[6] << 48 | (uint64_t)back << 56;
    return (bcube_stepped){word, mac_at(entry)};
}

/* with the tests of the rules, in their order */
bcube_stepped tested_step(STEP_ARGUMENTS) {
    uint32_t n = (uint32_t)(room.number & 255), k = (uint32_t)(room.number >> 8 & 255);
    uint64_t m = room.number >> 16;
    if (n < 2 || n > 64) return refused(1);
    if (k > 3) return refused(2);
    if (m < 2 || m > n) return refused(26);
    uint32_t power[4] = {1, n, n * n, n * n * n};
    uint32_t servers = power[k] * (uint32_t)m;
    if (servers > 4096) return refused(3);
    if (here >= servers || destination >= servers) return refused(4);
    if (neighbours_len != 2048) return refused(17);
    if (path_len != 8) return refused(7);
    if (here == destination) return refused(1 << 16);
    if (index >= 8) return refused(18);
    uint32_t byte = path[index], level = byte >> 6, value = byte & 63;
    uint64_t hop = (index + 1) << 8;
    if (level > k) return refused(8 + hop);
    if (value >= (level == k ? m : n)) return refused(9 + hop);
    uint32_t weight = power[level], own = (uint32_t)here / weight % n;
    if (own == value) return refused(10 + hop);
    const uint8_t *entry = neighbours + 8 * byte;
    if (entry[7] != 1) return refused(19 + hop);
    return taken((uint32_t)here + (value - own) * weight, index + 1, entry, level << 6 | own);
}

/* with no test but the arrival */
bcube_stepped bare_step(STEP_ARGUMENTS) {
    (void)path_len, (void)neighbours_len;
    if (here == destination) return refused(1 << 16);
    uint32_t n = (uint32_t)(room.number & 255), byte = path[index], level = byte >> 6, value = byte & 63, weight = 1;
    for (uint32_t i = 0; i < level; i++) weight *= n;
    uint32_t own = (uint32_t)here / weight % n;
    return taken((uint32_t)here + (value - own) * weight, index + 1, neighbours + 8 * byte, level << 6 | own);
}

/* what a call alone costs */
bcube_stepped no_step(STEP_ARGUMENTS) {
    (void)room, (void)here, (void)destination, (void)index, (void)path, (void)path_len, (void)neighbours, (void)neighbours_len;
    return refused(0);
}

/* ---- the table and its summary */

struct shape {
    uint32_t n, k, m, power[4], servers;
};

static bcube_answer refuses(uint32_t number) { return (bcube_answer){number}; }

/* the refusal of a room, or 0 */
static uint32_t room_refusal(struct shape *s, bcube_room room) {
    uint32_t n = (uint32_t)(room.number & 255), k = (uint32_t)(room.number >> 8 & 255);
    uint64_t m = room.number >> 16;
    if (n < 2 || n > 64) return 1;
    if (k > 3) return 2;
    if (m < 2 || m > n) return 26;
    *s = (struct shape){n, k, (uint32_t)m, {1, n, n * n, n * n * n}, 0};
    s->servers = s->power[k] * s->m;
    return s->servers > 4096 ? 3 : 0;
}

static uint32_t table_refusal(const struct shape *s, const uint8_t *table, size_t table_len) {
    uint8_t bits = 0;
    if (table_len != s->servers) return 6;
    for (size_t i = 0; i < table_len; i++) bits |= table[i];
    return bits >> (s->k + 1) != 0 ? 6 : 0;
}

static uint32_t bound(const struct shape *s, uint32_t level) { return level == s->k ? s->m : s->n; }

/* how many switches stand before those of a level */
static uint32_t before(const struct shape *s, uint32_t level) { return level * (s->servers / s->n); }

static uint32_t length_refusal(const struct shape *s, size_t summary_len) {
    return summary_len != before(s, s->k) + s->power[s->k] ? 30 : 0;
}

/* how many servers at the switch whose first server this is have their link there failed */
static uint8_t count(const struct shape *s, const uint8_t *table, uint32_t first, uint32_t level) {
    uint32_t failed = 0, stride = s->power[level], end = first + stride * bound(s, level);
    for (uint32_t server = first; server < end; server += stride) failed += table[server] >> level & 1;
    return (uint8_t)failed;
}

struct entry {
    uint32_t first; /* server of the switch */
    uint8_t *at;
};

static struct entry entry_of(const struct shape *s, uint32_t server, uint32_t level, uint8_t *summary) {
    uint32_t weight = s->power[level], high = server / weight / s->n, low = server % weight;
    return (struct entry){high * weight * s->n + low, summary + before(s, level) + high * weight + low};
}

static void change(const struct entry *entry, uint32_t server, uint32_t level, uint8_t *table, int fails) {
    int failed = table[server] >> level & 1;
    if (failed == fails) return;
    table[server] ^= (uint8_t)(1u << level);
    *entry->at = (uint8_t)(fails ? *entry->at + 1 : *entry->at - 1);
}

static inline bcube_answer change_link(bcube_room room, uint64_t server, uint64_t level, CHANGED, int fails) {
    struct shape s;
    uint32_t why = room_refusal(&s, room);
    if (why) return refuses(why);
    if (server >= s.servers) return refuses(4);
    if (level > s.k) return refuses(20);
    if (table_refusal(&s, table, table_len)) return refuses(6);
    if (length_refusal(&s, summary_len)) return refuses(30);
    struct entry entry = entry_of(&s, (uint32_t)server, (uint32_t)level, summary);
    if (*entry.at != count(&s, table, entry.first, (uint32_t)level)) return refuses(30);
    change(&entry, (uint32_t)server, (uint32_t)level, table, fails);
    return refuses(0);
}

bcube_answer tested_mark(bcube_room room, uint64_t server, uint64_t level, CHANGED) {
    return change_link(room, server, level, table, table_len, summary, summary_len, 1);
}

bcube_answer tested_clear(bcube_room room, uint64_t server, uint64_t level, CHANGED) {
    return change_link(room, server, level, table, table_len, summary, summary_len, 0);
}

static inline bcube_answer change_server(bcube_room room, uint64_t server, CHANGED, int fails) {
    struct shape s;
    struct entry entry[4];
    uint32_t why = room_refusal(&s, room);
    if (why) return refuses(why);
    if (server >= s.servers) return refuses(4);
    if (table_refusal(&s, table, table_len)) return refuses(6);
    if (length_refusal(&s, summary_len)) return refuses(30);
    for (uint32_t level = 0; level <= s.k; level++) {
        entry[level] = entry_of(&s, (uint32_t)server, level, summary);
        if (*entry[level].at != count(&s, table, entry[level].first, level)) return refuses(30);
    }
    for (uint32_t level = 0; level <= s.k; level++) change(&entry[level], (uint32_t)server, level, table, fails);
    return refuses(0);
}

bcube_answer tested_mark_all(bcube_room room, uint64_t server, CHANGED) {
    return change_server(room, server, table, table_len, summary, summary_len, 1);
}

bcube_answer tested_clear_all(bcube_room room, uint64_t server, CHANGED) {
    return change_server(room, server, table, table_len, summary, summary_len, 0);
}

/* the question: every entry is tested, and the first dead switch is met on the way */
bcube_answer tested_dead_switch(bcube_room room, const uint8_t *table, size_t table_len, const uint8_t *summary,
                                size_t summary_len) {
    struct shape s;
    uint32_t why = room_refusal(&s, room), dead = 0;
    if (why) return refuses(why);
    if (table_refusal(&s, table, table_len)) return refuses(6);
    if (length_refusal(&s, summary_len)) return refuses(30);
    for (uint32_t level = 0; level <= s.k; level++) {
        uint32_t weight = s.power[level], number = 0;
        for (uint32_t high = 0; high < s.servers; high += weight * s.n)
            for (uint32_t low = 0; low < weight; low++, number++) {
                uint8_t counted = count(&s, table, high + low, level);
                if (*summary++ != counted) return refuses(30);
                if (counted == bound(&s, level) && !dead) dead = 1u << 24 | level << 16 | number;
            }
    }
    return (bcube_answer){(uint64_t)dead << 32};
}

bcube_answer tested_summarize(bcube_room room, const uint8_t *table, size_t table_len, uint8_t *summary,
                              size_t summary_len) {
    struct shape s;
    uint32_t why = room_refusal(&s, room);
    if (why) return refuses(why);
    if (table_refusal(&s, table, table_len)) return refuses(6);
    if (length_refusal(&s, summary_len)) return refuses(30);
    for (uint32_t level = 0; level <= s.k; level++) {
        uint32_t weight = s.power[level];
        for (uint32_t high = 0; high < s.servers; high += weight * s.n)
            for (uint32_t low = 0; low < weight; low++) *summary++ = count(&s, table, high + low, level);
    }
    return refuses(0);
}

/* ---- spanning trees */

static void digits_of(const struct shape *s, uint32_t server, uint32_t digit[4]) {
    for (uint32_t level = 0; level <= s->k; level++, server /= s->n) digit[level] = server % s->n;
}

/* back from the tree's own level to the first at which the digits differ, which is the own one at the latest */
static uint32_t parent_by(const struct shape *s, uint32_t tree, const uint32_t *source, const uint32_t *own, uint32_t server) {
    uint32_t level = tree;
    if (source[tree] != own[tree])
        do level = level == 0 ? s->k : level - 1;
        while (source[level] == own[level]);
    return own[level] != 0 ? server - s->power[level] : server + (bound(s, level) - 1) * s->power[level];
}

bcube_answer tested_parent(bcube_room room, uint64_t source, uint64_t tree, uint64_t server) {
    struct shape s;
    uint32_t why = room_refusal(&s, room), from[4], own[4];
    if (why) return refuses(why);
    if (source >= s.servers || server >= s.servers) return refuses(4);
    if (tree > s.k) return refuses(20);
    if (source == server) return refuses(5);
    digits_of(&s, (uint32_t)source, from);
    digits_of(&s, (uint32_t)server, own);
    return (bcube_answer){(uint64_t)parent_by(&s, (uint32_t)tree, from, own, (uint32_t)server) << 32};
}

bcube_answer tested_tree(bcube_room room, uint64_t source, uint64_t tree, uint32_t parents[4096]) {
    struct shape s;
    uint32_t why = room_refusal(&s, room), from[4], own[4] = {0};
    if (why) return refuses(why);
    if (source >= s.servers) return refuses(4);
    if (tree > s.k) return refuses(20);
    digits_of(&s, (uint32_t)source, from);
    for (uint32_t server = 0; server < s.servers; server++) {
        parents[server] = server == source ? BCUBE_NO_PARENT : parent_by(&s, (uint32_t)tree, from, own, server);
        for (uint32_t level = 0; level <= s.k && ++own[level] == s.n; level++) own[level] = 0;
    }
    memset(parents + s.servers, 0, sizeof *parents * (BCUBE_TREE_NUMBERS - s.servers));
    return (bcube_answer){(uint64_t)s.servers << 32};
}
