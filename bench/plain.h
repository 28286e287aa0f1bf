/* Plain C, written for speed, to measure the proved library against. Two steps: one that makes the same tests, and one
 * that makes none; both answer in the proved step's form, the word and the MAC. The calls with a table and its
 * summary, with the same tests: a pass over the table, and one over the servers of each switch that is asked for. And
 * those of the spanning trees, by the rule of the parent, with the digits carried from server to server in a whole tree. */
#ifndef PLAIN_H
#define PLAIN_H

#include "bcube.h"

#define STEP_ARGUMENTS                                                                                            \
    bcube_room room, uint64_t here, uint64_t destination, uint64_t index, const uint8_t *path, size_t path_len,   \
        const uint8_t *neighbours, size_t neighbours_len

bcube_stepped tested_step(STEP_ARGUMENTS);
bcube_stepped bare_step(STEP_ARGUMENTS);
bcube_stepped no_step(STEP_ARGUMENTS);

#define CHANGED uint8_t *table, size_t table_len, uint8_t *summary, size_t summary_len

bcube_answer tested_mark(bcube_room room, uint64_t server, uint64_t level, CHANGED);
bcube_answer tested_clear(bcube_room room, uint64_t server, uint64_t level, CHANGED);
bcube_answer tested_mark_all(bcube_room room, uint64_t server, CHANGED);
bcube_answer tested_clear_all(bcube_room room, uint64_t server, CHANGED);
bcube_answer tested_dead_switch(bcube_room room, const uint8_t *table, size_t table_len, const uint8_t *summary,
                                size_t summary_len);
bcube_answer tested_summarize(bcube_room room, const uint8_t *table, size_t table_len, uint8_t *summary,
                              size_t summary_len);

bcube_answer tested_parent(bcube_room room, uint64_t source, uint64_t tree, uint64_t server);
bcube_answer tested_tree(bcube_room room, uint64_t source, uint64_t tree, uint32_t parents[4096]);

#endif
