/*
 * bil_run over the peer, so that a program over it links the peer in place of the archive.
 */
#include "interpreter.h"

uint32_t bil_run(const uint8_t *table, size_t table_len, uint64_t *state, size_t state_len, uint64_t *log,
                 size_t log_len, uint64_t count, uint64_t next, uint32_t budget, uint64_t *out, size_t out_len)
{
    return peer_run(table, table_len, state, state_len, log, log_len, count, next, budget, out, out_len);
}
