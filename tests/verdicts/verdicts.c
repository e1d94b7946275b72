/*
 * verdicts [FILE]: reads a table from a file or from standard input and prints both verdicts on it, by the four functions
 * of bil.h, each in the words of bilrun and whatever the other one says:
 *
 *     verdict CODE PLACE
 *     seal CODE PLACE
 *
 * Ends with 1 where the table can't be read.
 */
#include "bil.h"

#include <inttypes.h>
#include <stdio.h>
#include <stdlib.h>

/* All bytes of a file, in memory that the caller frees; NULL and 0 for an empty one. False where it can't be read. */
static int read_all(FILE *file, uint8_t **bytes, size_t *length)
{
    size_t room = 0;
    *bytes = NULL;
    *length = 0;
    for (int c = getc(file); c != EOF; c = getc(file)) {
        if (*length == room) {
            room = room == 0 ? 4096 : 2 * room;
            uint8_t *more = realloc(*bytes, room);
            if (more == NULL)
                return 0;
            *bytes = more;
        }
        (*bytes)[(*length)++] = (uint8_t)c;
    }
    return !ferror(file);
}

int main(int count, char **words)
{
    FILE *file = count > 1 ? fopen(words[1], "rb") : stdin;
    uint8_t *table;
    size_t length;
    if (file == NULL || !read_all(file, &table, &length)) {
        fprintf(stderr, "verdicts: the table can't be read\n");
        return 1;
    }
    printf("verdict %" PRIu32 " %" PRIu32 "\n", bil_check_code(table, length), bil_check_place(table, length));
    printf("seal %" PRIu32 " %" PRIu32 "\n", bil_seal_code(table, length), bil_seal_place(table, length));
    free(table);
    return fflush(stdout) != 0;
}
