/* A program of version 2, with the calls as that version's header declared them: a room of two numbers, a step whose
 * highest byte was zero and was read by no function, and a word whose fourth byte was so. Linked as it is with the library
 * of today, its rooms are the full ones, whatever the register of a third argument holds, and its functions read from a
 * step what they did, whatever the highest byte says now. From a refused word they read the same route and hop, whatever
 * the fourth byte says now; but where it was given 12 it is given 28 or 29, which it does not know, and with 15 there
 * comes a hop, where there was 0. Prints how many rooms it made, and steps and words it read; status 1 if one is another. */
#include <inttypes.h>
#include <stddef.h>
#include <stdio.h>

typedef struct {
    uint64_t number;
} bcube_room;

typedef struct {
    uint64_t word;
} bcube_answer;

typedef struct {
    uint64_t word;
    uint64_t mac;
} bcube_stepped;

bcube_room bcube_room_of(uint64_t n, uint64_t k);
bcube_answer bcube_servers(bcube_room room);
bcube_stepped bcube_step(bcube_room room, uint64_t here, uint64_t destination, uint64_t index, const uint8_t *path,
                         size_t path_len, const uint8_t *neighbours, size_t neighbours_len);

bcube_answer bcube_read(bcube_room room, uint64_t source, uint64_t destination, const uint8_t *path, size_t path_len,
                        uint64_t servers[9]);
bcube_answer bcube_write(bcube_room room, const uint64_t *servers, size_t servers_len, uint8_t path[8]);
bcube_answer bcube_reverse(bcube_room room, uint64_t source, uint64_t destination, const uint8_t *path, size_t path_len,
                           uint8_t reversed[8]);
bcube_answer bcube_check(bcube_room room, uint64_t source, uint64_t destination, const uint8_t *table, size_t table_len,
                         const uint8_t *list, size_t list_len);

static uint32_t bcube_refusal(bcube_answer answer) { return (uint32_t)(answer.word & 255); }
static uint32_t bcube_route(bcube_answer answer) { return (uint32_t)(answer.word >> 8 & 255); }
static uint32_t bcube_hop(bcube_answer answer) { return (uint32_t)(answer.word >> 16 & 255); }
static uint32_t bcube_value(bcube_answer answer) { return (uint32_t)(answer.word >> 32); }
static uint32_t bcube_step_refusal(bcube_stepped step) { return (uint32_t)(step.word & 255); }
static uint32_t bcube_step_hop(bcube_stepped step) { return (uint32_t)(step.word >> 8 & 255); }
static int bcube_step_delivered(bcube_stepped step) { return (int)(step.word >> 16 & 255); }
static uint32_t bcube_step_index(bcube_stepped step) { return (uint32_t)(step.word >> 24 & 255); }
static uint32_t bcube_step_next(bcube_stepped step) { return (uint32_t)(step.word >> 32 & 65535); }
static uint8_t bcube_step_port(bcube_stepped step) { return (uint8_t)(step.word >> 48 & 255); }

/* the answer of bcube_servers, from a function whose third argument stands where one of bcube_room_of would */
static uint64_t servers(uint64_t n, uint64_t k, uint64_t third) {
    (void)third;
    return bcube_servers(bcube_room_of(n, k)).word;
}

/* by a pointer that may change, so that the compiler does pass the third */
static uint64_t (*volatile called)(uint64_t, uint64_t, uint64_t) = servers;

/* steps in the (8,3) room by the path 80 41 c7, here and there; server 4095 has four digits 7. The entry of byte x has
 * the MAC 00:00:00:00:00:x and OutPort 255 - x, and is available but for byte c7. Gives how many are read as they were,
 * or 0 */
static unsigned read_steps(void) {
    static const struct {
        uint64_t here, index;
        uint32_t refusal, hop;
        int delivered;
        uint32_t next_index, next, port;
        uint64_t mac;
    } steps[] = {{4095, 0, 0, 0, 0, 1, 3647, 255 - 0x80, 0x80}, {3647, 1, 0, 0, 0, 2, 3599, 255 - 0x41, 0x41},
                 {3599, 1, 10, 2, 0, 0, 0, 0, 0}, {3647, 2, 10, 3, 0, 0, 0, 0, 0}, {511, 2, 19, 3, 0, 0, 0, 0, 0},
                 {4095, 8, 18, 0, 0, 0, 0, 0, 0}, {3655, 9, 0, 0, 1, 0, 0, 0, 0}};
    static const uint8_t path[8] = {0x80, 0x41, 0xc7};
    static uint8_t neighbours[2048];
    unsigned read = 0;
    for (unsigned byte = 0; byte < 256; byte++) {
        neighbours[8 * byte + 5] = (uint8_t)byte;
        neighbours[8 * byte + 6] = (uint8_t)(255 - byte);
        neighbours[8 * byte + 7] = byte != 0xc7;
    }
    for (size_t i = 0; i < sizeof steps / sizeof *steps; i++, read++) {
        bcube_stepped step = bcube_step(bcube_room_of(8, 3), steps[i].here, 3655, steps[i].index, path, 8, neighbours, 2048);
        if (bcube_step_refusal(step) == steps[i].refusal && bcube_step_hop(step) == steps[i].hop &&
            bcube_step_delivered(step) == steps[i].delivered && bcube_step_index(step) == steps[i].next_index &&
            bcube_step_next(step) == steps[i].next && bcube_step_port(step) == steps[i].port && step.mac == steps[i].mac)
            continue;
        printf("at %" PRIu64 ", index %" PRIu64 ": %016" PRIx64 " %012" PRIx64 "\n", steps[i].here, steps[i].index,
               step.word, step.mac);
        return 0;
    }
    return read;
}

static unsigned words, others; /* read, and read as another */

/* a word of today, to a question that version 2 answered by `was`: the number and the hop that its functions read now,
 * with the route and the value that they read then; and where number and hop are those of then, the same word */
static void reads(const char *what, bcube_answer now, uint64_t was, uint32_t number, uint32_t hop) {
    bcube_answer then = {was};
    int the_same = bcube_refusal(then) == number && bcube_hop(then) == hop;
    words++;
    if (bcube_refusal(now) == number && bcube_hop(now) == hop && bcube_route(now) == bcube_route(then) &&
        bcube_value(now) == bcube_value(then) && (!the_same || now.word == was))
        return;
    printf("%s: %016" PRIx64 ", which was %016" PRIx64 "\n", what, now.word, was);
    others++;
}

static uint64_t refused(uint64_t number, uint64_t route, uint64_t hop) { return number | route << 8 | hop << 16; }

/* arrays, servers and lists of the (4,1) room from server 0 */
static void read_words(void) {
    static const uint8_t table[16], level[8] = {0x80}, after[8] = {3, 1}, far[8] = {1, 0x41, 2, 0x42, 3, 0x43, 0, 0x41};
    static const uint8_t by_switch[8] = {1, 3}, and_back[8] = {1, 0}, around[8] = {1, 0x41, 0, 0x40};
    static const uint8_t twice[16] = {3, 0, 0, 0, 0, 0, 0, 0, 3}, good[16] = {0x41, 3, 0, 0, 0, 0, 0, 0, 3, 0x41};
    static const uint8_t second[16] = {0x41, 3, 0, 0, 0, 0, 0, 0, 2, 1}, late[16] = {0x41, 3, 0, 0, 0, 0, 0, 0, 2, 0x41, 3};
    static const uint64_t three[] = {0, 1, 3}, six[] = {0, 1, 5, 4, 0, 3}, apart[] = {0, 1, 6};
    bcube_room room = bcube_room_of(4, 1);
    uint64_t met[9];
    uint8_t path[8];
    reads("a level", bcube_read(room, 0, 3, level, 8, met), refused(8, 1, 1), 8, 1);
    reads("a byte after", bcube_reverse(room, 0, 3, after, 8, path), refused(14, 1, 2), 14, 2);
    reads("eight hops", bcube_read(room, 0, 8, far, 8, met), refused(13, 1, 8), 13, 8);
    reads("no neighbours", bcube_write(room, apart, 3, path), refused(23, 1, 2), 23, 2);
    reads("a good list", bcube_check(room, 0, 7, table, 16, good, 16), 0, 0, 0);
    reads("a good array", bcube_read(room, 0, 7, good, 8, met), UINT64_C(3) << 32, 0, 0);
    reads("a switch", bcube_read(room, 0, 3, by_switch, 8, met), refused(12, 1, 2), 29, 2);
    reads("the source", bcube_read(room, 0, 3, and_back, 8, met), refused(12, 1, 2), 28, 2);
    reads("the source, reversed", bcube_reverse(room, 0, 3, around, 8, path), refused(12, 1, 4), 28, 4);
    reads("a switch, written", bcube_write(room, three, 3, path), refused(12, 1, 2), 29, 2);
    reads("the source, written", bcube_write(room, six, 6, path), refused(12, 1, 4), 28, 4);
    reads("a switch, in a list", bcube_check(room, 0, 7, table, 16, second, 16), refused(12, 2, 2), 29, 2);
    reads("one route twice", bcube_check(room, 0, 3, table, 16, twice, 16), refused(15, 2, 0), 15, 1);
    reads("a switch of two", bcube_check(room, 0, 7, table, 16, late, 16), refused(15, 2, 0), 15, 3);
}

int main(void) {
    static const uint64_t third[] = {0, 1, 2, 3, 4, 7, 8, 9, 255, 256, UINT64_MAX};
    static const struct {
        uint64_t n, k, word;
    } rooms[] = {{8, 3, UINT64_C(4096) << 32}, {4, 1, UINT64_C(16) << 32}, {64, 0, UINT64_C(64) << 32},
                 {9, 3, 3}, {65, 0, 1}, {2, 4, 2}};
    unsigned made = 0;
    for (size_t r = 0; r < sizeof rooms / sizeof *rooms; r++)
        for (size_t t = 0; t < sizeof third / sizeof *third; t++, made++) {
            uint64_t word = called(rooms[r].n, rooms[r].k, third[t]);
            if (word == rooms[r].word) continue;
            printf("(%" PRIu64 ",%" PRIu64 ") beside %" PRIu64, rooms[r].n, rooms[r].k, third[t]);
            printf(": %016" PRIx64 "\n", word);
            return 1;
        }
    unsigned read = read_steps();
    read_words();
    if (read == 0 || others != 0) return 1;
    printf("%u rooms, %u steps, %u words", made, read, words);
    return 0;
}
