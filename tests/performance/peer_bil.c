/*
 * The four functions of bil.h over the peer, so that a program over bil.h links the peer in place of the archive.
 */
#include "bil.h"
#include "peer.h"

uint32_t bil_check_code(const uint8_t *table, size_t length)
{
    return peer_check(table, length).code;
}

uint32_t bil_check_place(const uint8_t *table, size_t length)
{
    return peer_check(table, length).place;
}

uint32_t bil_seal_code(const uint8_t *table, size_t length)
{
    return peer_seal(table, length).code;
}

uint32_t bil_seal_place(const uint8_t *table, size_t length)
{
    return peer_seal(table, length).place;
}
