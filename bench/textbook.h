/* The search of the textbooks, to measure the proved one against: breadth first over all neighbours of every
 * server. It answers in the proved search's form, on inputs that nothing refuses, and makes no tests. */
#ifndef TEXTBOOK_H
#define TEXTBOOK_H

#include "bcube.h"

#define FIND_ARGUMENTS                                                                                            \
    bcube_room room, uint64_t source, uint64_t destination, const uint8_t *table, size_t table_len, uint8_t path[8]

bcube_answer textbook_find(FIND_ARGUMENTS);
bcube_answer no_find(FIND_ARGUMENTS);

#endif
