/* The kinds of 15, 28 and 29 that the questions meet. See kinds.c. */
#ifndef KINDS_H
#define KINDS_H

#include "both.h"

/* Counts an answer to a question, if it is refused with 15, 28 or 29, by its kinds. */
void count_kinds(const struct question *question, answer given);

/* Prints the counts, and gives how many of these are amiss: a kind that a call can meet and that was met fewer than
 * LEAST times, or a refusal that names hops which do not meet. */
int print_kinds(void);

#endif
