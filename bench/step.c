/* step WHICH TIMES: makes every step of many packets TIMES times by one of the steps, and prints how many
 * calls that were, the sum of what they answered, and the time they took. WHICH is one of proved, tested,
 * bare, or none. */
#define _POSIX_C_SOURCE 199309L
#include "bcube.h"
#include "plain.h"

#include <inttypes.h>
#include <stdio.h>
#include <stdlib.h>
#include <string.h>
#include <time.h>

typedef bcube_stepped a_step(STEP_ARGUMENTS);

static const struct {
    const char *name;
    a_step *step;
} which[] = {{"none", no_step}, {"proved", bcube_step}, {"tested", tested_step}, {"bare", bare_step}};

/* A room of 8 ports and levels 0 to 3, as in the paper; packets that correct the digits k down to 0. */
enum { PACKETS = 256, STEPS = PACKETS * 5 };
static uint8_t table[BCUBE_NEIGHBOUR_TABLE_BYTES];
static struct {
    uint32_t here, destination, index;
    uint8_t path[8];
} steps[STEPS];

static size_t make_steps(void) {
    uint64_t seed = 1;
    size_t count = 0;
    for (size_t i = 0; i < sizeof table; i++) table[i] = (uint8_t)(i % 8 == 7 ? 1 : i * 37 % 251);
    for (int p = 0; p < PACKETS; p++) {
        seed = seed * 6364136223846793005u + 1442695040888963407u;
        uint32_t here = (uint32_t)(seed >> 40) % 4096, destination = (uint32_t)(seed >> 52) % 4096, index = 0, weight = 512;
        uint8_t path[8] = {0};
        uint32_t at[5];
        at[0] = here;
        for (uint32_t level = 4; level-- > 0; weight /= 8) {
            uint32_t old = here / weight % 8, new = destination / weight % 8;
            if (old == new) continue;
            path[index++] = (uint8_t)(64 * level + new);
            here = at[index] = here - old * weight + new * weight;
        }
        for (uint32_t i = 0; i <= index; i++, count++) {
            steps[count].here = at[i];
            steps[count].destination = destination;
            steps[count].index = i;
            memcpy(steps[count].path, path, 8);
        }
    }
    return count;
}

int main(int count, char **words) {
    if (count != 3) return 2;
    a_step *volatile step = NULL;
    for (size_t i = 0; i < sizeof which / sizeof *which; i++)
        if (strcmp(which[i].name, words[1]) == 0) step = which[i].step;
    if (!step) return 2;
    size_t made = make_steps();
    bcube_room room = bcube_room_of(8, 3);
    unsigned long times = strtoul(words[2], NULL, 10);
    uint64_t sum = 0;
    struct timespec from, to;
    clock_gettime(CLOCK_MONOTONIC, &from);
    for (unsigned long t = 0; t < times; t++)
        for (size_t i = 0; i < made; i++) {
            bcube_stepped taken = step(room, steps[i].here, steps[i].destination, steps[i].index, steps[i].path, 8, table, sizeof table);
            sum += taken.word + 3 * taken.mac;
        }
    clock_gettime(CLOCK_MONOTONIC, &to);
    double ns = 1e9 * (double)(to.tv_sec - from.tv_sec) + (double)(to.tv_nsec - from.tv_nsec);
    printf("calls %lu sum %" PRIx64 " ns %.0f\n", times * (unsigned long)made, sum, ns);
    return 0;
}
