/* search check: compares both searches, hops and bytes, on the questions of every case and on many random
 * tables; prints how many.
 * search WHICH CASE TIMES: asks every question of a case TIMES times by one of the searches (proved, textbook
 * or none), and prints how many calls that were, the sum of what they answered, and the time they took. */
#define _POSIX_C_SOURCE 199309L
#include "bcube.h"
#include "textbook.h"

#include <inttypes.h>
#include <stdio.h>
#include <stdlib.h>
#include <string.h>
#include <time.h>

typedef bcube_answer a_find(FIND_ARGUMENTS);

static const struct {
    const char *name;
    a_find *find;
} which[] = {{"none", no_find}, {"proved", bcube_find}, {"textbook", textbook_find}};

enum { SERVERS = 4096, QUESTIONS = 16, FAILED = 8, HALF = 11357, RANDOM = 3600 };

struct shape {
    uint32_t n, k, m;
};

/* In the worst cases all links of the destination are failed, so that every other server is met. HALF random
 * links, drawn with repetition, are about half of all 16,384. */
static const struct {
    const char *name;
    struct shape shape;
    int worst;
    uint32_t failed;
} cases[] = {{"8,3-worst", {8, 3, 8}, 1, 0}, {"16,2-worst", {16, 2, 16}, 1, 0}, {"64,1-worst", {64, 1, 64}, 1, 0},
             {"8,3-typical", {8, 3, 8}, 0, FAILED}, {"8,3-half", {8, 3, 8}, 1, HALF}, {"8,3,4-worst", {8, 3, 4}, 1, 0}};

static struct {
    uint32_t source, destination;
    uint8_t table[SERVERS];
} question[QUESTIONS];

static uint64_t seed = 1;

static uint32_t below(uint32_t most) {
    seed = seed * 6364136223846793005u + 1442695040888963407u;
    return (uint32_t)(seed >> 33) % most;
}

/* a pair of servers and a table with this many random links failed, or with all of the destination's */
static void make_question(int i, uint32_t k, uint32_t servers, uint32_t failed, int worst) {
    memset(question[i].table, 0, SERVERS);
    question[i].source = below(servers);
    do question[i].destination = below(servers);
    while (question[i].destination == question[i].source);
    for (uint32_t f = 0; f < failed; f++) question[i].table[below(servers)] |= (uint8_t)(1u << below(k + 1));
    if (worst) question[i].table[question[i].destination] = (uint8_t)((2u << k) - 1);
}

static uint32_t servers_of(struct shape shape) {
    uint32_t servers = shape.m;
    for (uint32_t i = 0; i < shape.k; i++) servers *= shape.n;
    return servers;
}

static bcube_room room_of(struct shape shape) { return bcube_filled_room(shape.n, shape.k, shape.m); }

static int make_case(size_t c) {
    int questions = cases[c].worst ? 1 : QUESTIONS;
    for (int i = 0; i < questions; i++)
        make_question(i, cases[c].shape.k, servers_of(cases[c].shape), cases[c].failed, cases[c].worst);
    return questions;
}

/* both searches on one question; gives the hops */
static uint32_t compare(int i, struct shape shape) {
    uint32_t a = question[i].source, d = question[i].destination;
    const uint8_t *table = question[i].table;
    size_t servers = servers_of(shape);
    uint8_t proved[8], textbook[8];
    bcube_room room = room_of(shape);
    bcube_answer answer = bcube_find(room, a, d, table, servers, proved);
    if (answer.word == textbook_find(room, a, d, table, servers, textbook).word && memcmp(proved, textbook, 8) == 0)
        return bcube_value(answer);
    printf("the searches differ in room (%" PRIu32 ",%" PRIu32 ",%" PRIu32 ") from %" PRIu32 " to %" PRIu32 "\n",
           shape.n, shape.k, shape.m, a, d);
    exit(1);
}

static int check(void) {
    static const struct shape rooms[] = {{2, 0, 2}, {2, 3, 2}, {3, 2, 3}, {4, 3, 4}, {5, 1, 5}, {8, 3, 8}, {16, 2, 16},
                                         {64, 1, 64}, {64, 0, 64}, {4, 1, 2}, {3, 2, 2}, {8, 3, 4}, {9, 3, 5},
                                         {12, 3, 2}, {45, 2, 2}, {64, 0, 2}};
    int compared = 0, lengths[9] = {0};
    for (size_t c = 0; c < sizeof cases / sizeof *cases; c++)
        for (int i = 0, made = make_case(c); i < made; i++, compared++) compare(i, cases[c].shape);
    for (int r = 0; r < RANDOM; r++, compared++) {
        struct shape shape = rooms[r % (int)(sizeof rooms / sizeof *rooms)];
        uint32_t servers = servers_of(shape);
        make_question(0, shape.k, servers, below(2 * servers * (shape.k + 1)), 0);
        lengths[compare(0, shape)]++;
    }
    printf("both searches answer alike on %d tables; random ones, by hops from 0 (no route) to 8:", compared);
    for (int h = 0; h <= 8; h++) printf(" %d", lengths[h]);
    printf("\n");
    return 0;
}

int main(int count, char **words) {
    if (count == 2 && strcmp(words[1], "check") == 0) return check();
    if (count != 4) return 2;
    a_find *volatile find = NULL;
    for (size_t i = 0; i < sizeof which / sizeof *which; i++)
        if (strcmp(which[i].name, words[1]) == 0) find = which[i].find;
    size_t c = 0;
    while (c < sizeof cases / sizeof *cases && strcmp(cases[c].name, words[2]) != 0) c++;
    if (!find || c == sizeof cases / sizeof *cases) return 2;
    int made = make_case(c);
    bcube_room room = room_of(cases[c].shape);
    size_t servers = servers_of(cases[c].shape);
    unsigned long times = strtoul(words[3], NULL, 10);
    uint8_t path[8];
    uint64_t sum = 0;
    struct timespec from, to;
    clock_gettime(CLOCK_MONOTONIC, &from);
    for (unsigned long t = 0; t < times; t++)
        for (int i = 0; i < made; i++)
            sum += find(room, question[i].source, question[i].destination, question[i].table, servers, path).word;
    clock_gettime(CLOCK_MONOTONIC, &to);
    double ns = 1e9 * (double)(to.tv_sec - from.tv_sec) + (double)(to.tv_nsec - from.tv_nsec);
    printf("calls %lu sum %" PRIx64 " ns %.0f\n", times * (unsigned long)made, sum, ns);
    return 0;
}
