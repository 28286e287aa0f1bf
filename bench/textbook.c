#include "textbook.h"

#include <string.h>

enum { SERVERS = 4096, HOPS = 8 };

struct answer {
    uint32_t hops;
    uint8_t bytes[HOPS];
};

struct search {
    uint16_t queue[SERVERS], parent[SERVERS];
    uint8_t visited[SERVERS], byte[SERVERS];
};

/* the path bytes, from the destination back; none if they are more than eight */
static struct answer way_back(const struct search *s, uint32_t source, uint32_t destination) {
    struct answer found = {0, {0}};
    uint32_t hops = 0;
    for (uint32_t at = destination; at != source; at = s->parent[at])
        if (++hops > HOPS) return found;
    found.hops = hops;
    for (uint32_t at = destination; at != source; at = s->parent[at]) found.bytes[--hops] = s->byte[at];
    return found;
}

/* whether the link of a server at a level is failed */
static int failed(const uint8_t *table, uint32_t server, uint32_t level) { return table[server] >> level & 1; }

/* the server whose digit of this weight is the value, and whose other digits are those of this one */
static uint32_t with_digit(uint32_t n, uint32_t weight, uint32_t value, uint32_t server) {
    return server + (value - server / weight % n) * weight;
}

/* levels from k down, values from 0 up: below m at level k, below n at every other */
static struct answer search(uint32_t n, uint32_t k, uint32_t m, uint32_t source, uint32_t destination,
                            const uint8_t *table) {
    struct search s;
    uint32_t weight[4] = {1, n, n * n, n * n * n}, head = 0, tail = 0;
    memset(s.visited, 0, sizeof s.visited);
    s.visited[source] = 1;
    s.queue[tail++] = (uint16_t)source;
    while (head < tail) {
        uint32_t here = s.queue[head++];
        for (uint32_t level = k + 1; level-- > 0;)
            for (uint32_t value = 0, bound = level == k ? m : n; value < bound; value++) {
                uint32_t next = with_digit(n, weight[level], value, here);
                if (next == here) continue;
                if (failed(table, here, level) || failed(table, next, level)) continue;
                if (s.visited[next]) continue;
                s.visited[next] = 1;
                s.parent[next] = (uint16_t)here;
                s.byte[next] = (uint8_t)(64 * level + value);
                if (next == destination) return way_back(&s, source, destination);
                s.queue[tail++] = (uint16_t)next;
            }
    }
    return (struct answer){0, {0}};
}

bcube_answer textbook_find(FIND_ARGUMENTS) {
    (void)table_len;
    uint32_t shape = (uint32_t)room.number, n = shape & 255, k = shape >> 8 & 255, m = shape >> 16;
    struct answer found = search(n, k, m, (uint32_t)source, (uint32_t)destination, table);
    memcpy(path, found.bytes, HOPS);
    return (bcube_answer){(uint64_t)found.hops << 32};
}

/* what a call alone costs */
bcube_answer no_find(FIND_ARGUMENTS) {
    (void)room, (void)source, (void)destination, (void)table, (void)table_len, (void)path;
    return (bcube_answer){0};
}
