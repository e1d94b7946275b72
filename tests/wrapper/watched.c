/*
 * The functions of bil.h that keep watch on their caller: where a place is asked of a code that has none, or the value of
 * an answer that is no word, the program ends. The code of a table is its first byte, its place 7; the kind of a word is
 * its left operand, its value the right one.
 */
#include "bil.h"

#include <stdio.h>
#include <stdlib.h>

static void watch(int asked_with_reason, const char *function)
{
    if (!asked_with_reason) {
        fprintf(stderr, "%s is called without a reason\n", function);
        exit(1);
    }
}

uint32_t bil_check_code(const uint8_t *table, size_t length)
{
    return length == 0 ? 0 : table[0];
}

uint32_t bil_check_place(const uint8_t *table, size_t length)
{
    watch(bil_check_code(table, length) > BIL_LAYOUT, "bil_check_place");
    return 7;
}

uint32_t bil_seal_code(const uint8_t *table, size_t length)
{
    return bil_check_code(table, length);
}

uint32_t bil_seal_place(const uint8_t *table, size_t length)
{
    watch(bil_seal_code(table, length) > BIL_LAYOUT, "bil_seal_place");
    return 7;
}

uint32_t bil_word_kind(uint32_t sub, uint32_t width, uint64_t a, uint64_t b)
{
    (void)sub, (void)width, (void)b;
    return (uint32_t)a;
}

uint64_t bil_word_value(uint32_t sub, uint32_t width, uint64_t a, uint64_t b)
{
    (void)sub, (void)width;
    watch(a == BIL_WORD, "bil_word_value");
    return b;
}

/* Not called: the wrapper links it. */
uint32_t bil_run(const uint8_t *table, size_t length, uint64_t *state, size_t state_size, uint64_t *log,
                 size_t log_size, uint64_t log_count, uint64_t next, uint32_t budget, uint64_t *out, size_t out_size)
{
    (void)table, (void)length, (void)state, (void)state_size, (void)log, (void)log_size;
    (void)log_count, (void)next, (void)budget, (void)out, (void)out_size;
    return 0;
}
