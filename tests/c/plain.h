/* The rules of the room once more, in plain C: every call of include/bcube.h under the prefix plain_, with
 * the same arguments, the same answer and the same bytes left in every buffer. It was written from the rules
 * and shares nothing with the proved library but the types of a room and of an answer. See plain.c. */
#ifndef BCUBE_PLAIN_H
#define BCUBE_PLAIN_H

#include "bcube.h"

uint64_t plain_version(void);

bcube_room plain_room_of(uint64_t n, uint64_t k);
bcube_room plain_filled_room(uint64_t n, uint64_t k, uint64_t m);
bcube_answer plain_shape(bcube_room room);
bcube_answer plain_servers(bcube_room room);
bcube_answer plain_bound(bcube_room room, uint64_t level);
bcube_answer plain_switches(bcube_room room, uint64_t level);
bcube_answer plain_digits(bcube_room room, uint64_t server, uint64_t digits[4]);
bcube_answer plain_digit(bcube_room room, uint64_t server, uint64_t level);
bcube_answer plain_address(bcube_room room, uint64_t d0, uint64_t d1, uint64_t d2, uint64_t d3);
bcube_answer plain_switch(bcube_room room, uint64_t server, uint64_t level);
bcube_answer plain_server_at(bcube_room room, uint64_t level, uint64_t number, uint64_t port);
bcube_answer plain_neighbour(bcube_room room, uint64_t server, uint64_t level, uint64_t value);
bcube_answer plain_between(bcube_room room, uint64_t one, uint64_t other);

bcube_answer plain_failed_link(bcube_room room, uint64_t server, uint64_t level, const uint8_t *table,
                               size_t table_len);
bcube_answer plain_mark(bcube_room room, uint64_t server, uint64_t level, uint8_t *table, size_t table_len,
                        uint8_t *summary, size_t summary_len);
bcube_answer plain_clear(bcube_room room, uint64_t server, uint64_t level, uint8_t *table, size_t table_len,
                         uint8_t *summary, size_t summary_len);
bcube_answer plain_mark_all(bcube_room room, uint64_t server, uint8_t *table, size_t table_len, uint8_t *summary,
                            size_t summary_len);
bcube_answer plain_clear_all(bcube_room room, uint64_t server, uint8_t *table, size_t table_len, uint8_t *summary,
                             size_t summary_len);
bcube_answer plain_dead_switch(bcube_room room, const uint8_t *table, size_t table_len, const uint8_t *summary,
                               size_t summary_len);
bcube_answer plain_summarize(bcube_room room, const uint8_t *table, size_t table_len, uint8_t *summary,
                             size_t summary_len);

bcube_answer plain_path_byte(bcube_room room, uint64_t level, uint64_t value);
bcube_answer plain_path_byte_parts(bcube_room room, uint64_t byte);
bcube_answer plain_hop_of(bcube_room room, uint64_t server, uint64_t byte);
bcube_answer plain_read(bcube_room room, uint64_t source, uint64_t destination, const uint8_t *path,
                        size_t path_len, uint64_t servers[9]);
bcube_answer plain_write(bcube_room room, const uint64_t *servers, size_t servers_len, uint8_t path[8]);
bcube_answer plain_reverse(bcube_room room, uint64_t source, uint64_t destination, const uint8_t *path,
                           size_t path_len, uint8_t reversed[8]);
bcube_answer plain_check(bcube_room room, uint64_t source, uint64_t destination, const uint8_t *table,
                         size_t table_len, const uint8_t *list, size_t list_len);

bcube_answer plain_build(bcube_room room, uint64_t source, uint64_t destination, uint8_t routes[32]);
bcube_answer plain_find(bcube_room room, uint64_t source, uint64_t destination, const uint8_t *table,
                        size_t table_len, uint8_t path[8]);
bcube_answer plain_select(bcube_room room, uint64_t source, uint64_t destination, const uint8_t *table,
                          size_t table_len, uint8_t routes[32]);
bcube_answer plain_pick(bcube_room room, uint64_t source, uint64_t destination, const uint8_t *table,
                        size_t table_len, const uint8_t *fresh, size_t fresh_len, const uint8_t *kept,
                        size_t kept_len);

bcube_stepped plain_step(bcube_room room, uint64_t here, uint64_t destination, uint64_t index, const uint8_t *path,
                         size_t path_len, const uint8_t *neighbours, size_t neighbours_len);

bcube_answer plain_parent(bcube_room room, uint64_t source, uint64_t tree, uint64_t server);
bcube_answer plain_tree(bcube_room room, uint64_t source, uint64_t tree, uint32_t parents[4096]);

#endif
