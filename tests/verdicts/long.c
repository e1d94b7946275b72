/*
 * Lends tables that are longer than 32 bits can count: a good table, with 4 GB and with 4 GB less one byte of zeros
 * behind it. Neither is the table that it starts with. Prints the verdicts, and ends with 1 where one is wrong.
 */
#define _DEFAULT_SOURCE
#include "bil.h"

#include <inttypes.h>
#include <stdio.h>
#include <sys/mman.h>

/* one state variable of 8 bits, moved the word 5 */
static const uint8_t good[] = {1, 0, 8, 0, 1, 0,  0, 0, 32, 0, 0, 0, 1, 0, 0, 0, 40, 0, 0, 0, 1, 0, 0, 0,
                               56, 0, 0, 0, 72, 0, 0, 0, 1, 0, 8, 0, 0, 0, 0, 0, 2, 0, 8, 0, 0, 0, 0, 0,
                               5, 0, 0, 0, 0, 0, 0, 0, 1, 0, 0, 0, 0, 0, 0, 0, 0, 0, 0, 0, 0, 0, 0, 0};

static int wrong;

static void ask(const uint8_t *table, size_t length, uint32_t want)
{
    uint32_t check = bil_check_code(table, length);
    uint32_t seal = bil_seal_code(table, length);
    printf("%zu bytes: check %" PRIu32 ", seal %" PRIu32 "\n", length, check, seal);
    wrong |= check != want || seal != want || bil_check_place(table, length) != 0 || bil_seal_place(table, length) != 0;
}

int main(void)
{
    size_t far = (size_t)1 << 32;
    size_t room = far + sizeof good;
    /* memory that is never touched takes no room */
    uint8_t *table = mmap(NULL, room, PROT_READ | PROT_WRITE, MAP_PRIVATE | MAP_ANONYMOUS | MAP_NORESERVE, -1, 0);
    if (table == MAP_FAILED) {
        perror("long: mmap");
        return 1;
    }
    for (size_t i = 0; i < sizeof good; i++)
        table[i] = good[i];
    ask(table, sizeof good, BIL_ACCEPTED);
    ask(table, far, BIL_LAYOUT);
    ask(table, room - 1, BIL_LAYOUT);
    ask(table, room, BIL_LAYOUT);
    return wrong;
}
