/*
 * Answers verdicts on tables over a pipe, with the four functions of bil.h, so that a test on any machine can ask it.
 *
 * Reads requests from standard input until it ends: a length (4 bytes, at most ROOM) and so many bytes of a table.
 * Writes an answer of 16 bytes for each to standard output: the check's code and place, the seal check's code and place
 * (4 bytes each). All numbers are little-endian, as on x86-64. A table lies right below memory that can't be read, so
 * that a read past its end stops the driver. Ends with 1 where the input ends inside a request, a request is too long
 * or an answer can't be written.
 */
#define _DEFAULT_SOURCE
#include "bil.h"

#include <stdio.h>
#include <sys/mman.h>

enum { ROOM = 1 << 20, GUARD = 1 << 16 };

static int wrong(const char *why)
{
    fprintf(stderr, "driver: %s\n", why);
    return 1;
}

int main(void)
{
    uint8_t *room = mmap(NULL, ROOM + GUARD, PROT_READ | PROT_WRITE, MAP_PRIVATE | MAP_ANONYMOUS, -1, 0);
    if (room == MAP_FAILED || mprotect(room + ROOM, GUARD, PROT_NONE) != 0)
        return wrong("there is no memory for tables");

    uint32_t length;
    size_t got;
    while ((got = fread(&length, 1, sizeof length, stdin)) == sizeof length) {
        if (length > ROOM)
            return wrong("a table is too long");
        uint8_t *table = room + ROOM - length;
        if (fread(table, 1, length, stdin) != length)
            return wrong("the input ends inside a table");
        uint32_t answer[4] = {bil_check_code(table, length), bil_check_place(table, length),
                              bil_seal_code(table, length), bil_seal_place(table, length)};
        if (fwrite(answer, sizeof answer, 1, stdout) != 1)
            return 1;
    }
    if (got != 0)
        return wrong("the input ends inside a length");
    return ferror(stdin) || fflush(stdout) != 0;
}
