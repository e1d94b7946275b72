/*
 * Answers word operations over a pipe, with the archive's functions, so that a test on any machine can ask it.
 *
 * Reads requests of 24 bytes from standard input until it ends: sub and width (4 bytes each), a and b (8 bytes each).
 * Writes an answer of 16 bytes for each to standard output: kind (4 bytes), four zeros, value (8 bytes). All numbers
 * are little-endian, as on x86-64. Ends with 1 where the input ends inside a request or an answer can't be written.
 */
#include "bil.h"

#include <stdio.h>
#include <string.h>

struct request {
    uint32_t sub;
    uint32_t width;
    uint64_t a;
    uint64_t b;
};

struct answer {
    uint32_t kind;
    uint32_t zero;
    uint64_t value;
};

_Static_assert(sizeof(struct request) == 24, "a request has 24 bytes");
_Static_assert(sizeof(struct answer) == 16, "an answer has 16 bytes");

enum { BATCH = 4096 };

static unsigned char bytes[BATCH * sizeof(struct request)];
static struct answer answers[BATCH];

static struct answer answer(const struct request *r)
{
    struct answer given = {bil_word_kind(r->sub, r->width, r->a, r->b), 0,
                           bil_word_value(r->sub, r->width, r->a, r->b)};
    return given;
}

int main(void)
{
    size_t length;
    while ((length = fread(bytes, 1, sizeof bytes, stdin)) > 0) {
        size_t count = length / sizeof(struct request);
        for (size_t i = 0; i < count; i++) {
            struct request r;
            memcpy(&r, bytes + i * sizeof r, sizeof r);
            answers[i] = answer(&r);
        }
        if (fwrite(answers, sizeof(struct answer), count, stdout) != count)
            return 1;
        if (length % sizeof(struct request) != 0) {
            fprintf(stderr, "driver: the input ends inside a request\n");
            return 1;
        }
    }
    return ferror(stdin) || fflush(stdout) != 0;
}
