/* peer.h: the calls of ridkostan.h once more, in plain C, to measure and compare the library with. */
#ifndef PEER_H
#define PEER_H

#include "ridkostan.h"

#ifdef __cplusplus
extern "C" {
#endif

ridkostan_checked peer_check(ridkostan_setup setup);

ridkostan_lent peer_lengths(ridkostan_setup setup);

ridkostan_started peer_fresh_start(ridkostan_setup setup, ridkostan_state state,
                                   const uint32_t *memory, size_t memory_len,
                                   uint32_t *rows, size_t rows_len,
                                   const uint32_t *entries, size_t entries_len,
                                   uint32_t *heads, size_t heads_len);

ridkostan_cycled peer_cycle(ridkostan_setup setup, ridkostan_state state, ridkostan_operation operation,
                            uint32_t *memory, size_t memory_len,
                            uint32_t *rows, size_t rows_len,
                            uint32_t *entries, size_t entries_len,
                            uint32_t *heads, size_t heads_len);

ridkostan_told peer_waiting(ridkostan_setup setup, ridkostan_state state, uint32_t bank,
                            const uint32_t *memory, size_t memory_len,
                            const uint32_t *rows, size_t rows_len,
                            const uint32_t *entries, size_t entries_len,
                            const uint32_t *heads, size_t heads_len);

ridkostan_checked peer_read_setup(const uint8_t *record, size_t record_len);

uint32_t peer_write_setup(ridkostan_setup setup, uint8_t *room, size_t room_len);

ridkostan_recorded peer_read_operation(const uint8_t *record, size_t record_len);

uint32_t peer_write_operation(ridkostan_operation operation, uint8_t *room, size_t room_len);

#ifdef __cplusplus
}
#endif

#endif
