/* One question put to both, the proved library and the plain implementation, and their answers compared:
 * the words, every byte left in the buffers that are written to, the bytes around them, and the lent buffers. See
 * both.c. */
#ifndef BOTH_H
#define BOTH_H

#include "bcube.h"

enum call {
    VERSION, ROOM_OF, FILLED_ROOM,
    SHAPE, SERVERS, BOUND, SWITCHES, DIGITS, DIGIT, ADDRESS, SWITCH, SERVER_AT, NEIGHBOUR, BETWEEN,
    PATH_BYTE, PATH_BYTE_PARTS, HOP_OF,
    FAILED_LINK, MARK, CLEAR, MARK_ALL, CLEAR_ALL, DEAD_SWITCH, SUMMARIZE,
    READ, WRITE, REVERSE, CHECK,
    BUILD, FIND, SELECT, PICK,
    STEP,
    PARENT, TREE,
    CALLS
};

/* A call with its arguments: the room, the other numbers, and the lent buffers, in the order in which the call
 * takes them. Lengths count elements. A buffer at NULL is lent as a null pointer. */
struct question {
    enum call call;
    bcube_room room;
    uint64_t number[4];
    struct {
        const void *at;
        size_t len;
    } lent[3];
};

/* What a call gives back: its one number, or the two of a step. */
typedef bcube_stepped answer;

/* Makes the buffers. Once, before the first question. */
void open_both(void);

/* A readable area of more than 2^32 + 4,096 zero bytes, or NULL where the machine has none to give. */
const void *vast_area(void);

/* Asks both, counts the answer, and reports a difference. Gives the plain answer. */
answer ask(const struct question *question);

/* What the last question left in the plain out buffer, or in the table that it was lent to write to; */
const void *left(void);

/* and in the summary that it was lent to write to. */
const void *left_summary(void);

/* Reports a question whose answer is not the one worked by hand: what was given, and what is wanted. */
void not_as_worked(const struct question *question, answer given, answer wanted);

/* Reports a question after which the summary carried along is not the one counted afresh. */
void not_as_counted(const struct question *question);

/* Reports a whole tree of which something does not hold that the rules say of all, or not of this server. */
void not_a_tree(const struct question *question, const char *what, uint32_t server);

unsigned long comparisons(void);
unsigned long differences(void);

/* How often each refusal has to be met, by each call that can give it. */
enum { LEAST = 100 };

/* Prints the counts by call and by refusal, and those of the kinds of 15, 28 and 29 (kinds.c), and gives how many of
 * these are amiss: a refusal that the call can give and that was met fewer than LEAST times, or one that it cannot
 * give; and so for the kinds. */
int print_counts(void);

#endif
