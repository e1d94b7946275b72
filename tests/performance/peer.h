/*
 * peer.h: a plain C checker of tables, to measure the proved library against. It gives code and place in one call.
 */
#ifndef PEER_H
#define PEER_H

#include <stddef.h>
#include <stdint.h>

struct verdict {
    uint32_t code;
    uint32_t place;
};

/* Refusals 1 to 13, or 0 and 0. */
struct verdict peer_check(const uint8_t *table, size_t length);

/* Refusals 1 to 15, or 0 and 0. */
struct verdict peer_seal(const uint8_t *table, size_t length);

#endif
