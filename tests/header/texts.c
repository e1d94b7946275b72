/*
 * Prints what bil.h says of codes: for each code 0 to 99 that has a text its number and its text, for each other one
 * nothing. Then checks bil_variables on headers, good and bad; ends with 1 where it gives something else.
 */
#include "bil.h"

#include <stdio.h>
#include <string.h>

int main(void)
{
    for (uint64_t code = 0; code < 100; code++)
        if (strcmp(bil_code_text(code), "no such code") != 0)
            printf("%d %s\n", (int)code, bil_code_text(code));
    if (strcmp(bil_code_text(UINT64_MAX), "no such code") != 0 || strcmp(bil_code_text(UINT64_C(1) << 32), "no such code") != 0)
        return 1;
    if (BIL_ACCEPTED != 0 || BIL_CLEAN != 0 || BIL_DONE != 0 || BIL_STATE_MOST != 2 * BIL_VARIABLES_MOST)
        return 1;

    struct {
        uint8_t count[4];
        size_t length, want;
    } headers[] = {{{0, 0, 0, 0}, 32, 0},    {{1, 0, 0, 0}, 72, 1},   {{255, 0, 0, 0}, 32, 255}, {{0, 1, 0, 0}, 32, 256},
                   {{1, 1, 0, 0}, 32, 0},    {{0, 0, 1, 0}, 32, 0},   {{0, 0, 0, 1}, 32, 0},     {{1, 0, 0, 0}, 31, 0},
                   {{1, 0, 0, 128}, 32, 0}};
    for (size_t i = 0; i < sizeof headers / sizeof headers[0]; i++) {
        uint8_t table[72] = {1, 0, 8, 0};
        memcpy(table + 4, headers[i].count, 4);
        if (bil_variables(table, headers[i].length) != headers[i].want)
            return 1;
    }
    return bil_variables(NULL, 0) != 0;
}
