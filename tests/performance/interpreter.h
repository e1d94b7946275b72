/*
 * interpreter.h: a plain C run of a table, to measure the proved library against.
 */
#ifndef INTERPRETER_H
#define INTERPRETER_H

#include <stddef.h>
#include <stdint.h>

/*
 * The run of a table from a state, a log of so many entries and a next address, with so many ticks. `out` takes code,
 * place, ticks, log count and next address. Where it isn't five long nothing is written and the answer is 0, else 1.
 */
uint32_t peer_run(const uint8_t *table, size_t table_len, uint64_t *state, size_t state_len, uint64_t *log,
                  size_t log_len, uint64_t count, uint64_t next, uint32_t budget, uint64_t *out, size_t out_len);

#endif
