/*
 * measure check|seal CODE TIMES < TABLE: asks for a verdict so many times, to count the instructions that it takes.
 * Ends with 1 where the verdict's code is another, so that the work is what it is taken for, and with 2 where it can't
 * be asked.
 */
#include "bil.h"

#include <stdio.h>
#include <stdlib.h>
#include <string.h>
#include <unistd.h>

static uint8_t table[1 << 16];

int main(int count, char **words)
{
    size_t length = 0;
    ssize_t got;
    if (count != 4)
        return 2;
    while ((got = read(STDIN_FILENO, table + length, sizeof table - length)) > 0)
        length += (size_t)got;
    uint32_t (*ask)(const uint8_t *, size_t) = strcmp(words[1], "check") == 0 ? bil_check_code : bil_seal_code;
    uint32_t code = (uint32_t)atol(words[2]);
    for (long times = atol(words[3]); times > 0; times--)
        if (ask(table, length) != code)
            return 1;
    return 0;
}
