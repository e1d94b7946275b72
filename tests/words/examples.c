/*
 * A C program over bil.h and the archive, as a user of the library would write one: the scope's word examples at 8
 * bits, divisions by zero and bad arguments. Prints a line for each, and ends with 1 if an answer is not as expected.
 */
#include "bil.h"

#include <inttypes.h>
#include <stdio.h>

struct example {
    const char *words;
    uint32_t sub;
    uint32_t width;
    uint64_t a;
    uint64_t b;
    uint32_t kind;
    uint64_t value;
};

static const struct example examples[] = {
    /* the scope's examples */
    {"sdiv: the lowest number by -1", BIL_SDIV, 8, 0x80, 0xFF, BIL_WORD, 0x80},
    {"sdiv: -7 by 2, toward zero", BIL_SDIV, 8, 0xF9, 2, BIL_WORD, 0xFD},
    {"smod: -7 by 2, the dividend's sign", BIL_SMOD, 8, 0xF9, 2, BIL_WORD, 0xFF},
    {"smod: 7 by -2, the dividend's sign", BIL_SMOD, 8, 7, 0xFE, BIL_WORD, 1},
    {"asr: by the width, the sign", BIL_ASR, 8, 0x80, 8, BIL_WORD, 0xFF},
    {"lsr: by the width, zeros", BIL_LSR, 8, 0x80, 8, BIL_WORD, 0},
    {"slt: -128 and 127", BIL_SLT, 8, 0x80, 0x7F, BIL_WORD, 1},
    {"lt: 128 and 127", BIL_LT, 8, 0x80, 0x7F, BIL_WORD, 0},

    /* by zero */
    {"div: by zero", BIL_DIV, 8, 5, 0, BIL_UNKNOWN, 0},
    {"sdiv: by zero", BIL_SDIV, 8, 0x80, 0, BIL_UNKNOWN, 0},
    {"mod: by zero", BIL_MOD, 8, 5, 0, BIL_UNKNOWN, 0},
    {"smod: by zero", BIL_SMOD, 8, 0x80, 0, BIL_UNKNOWN, 0},

    /* bad arguments */
    {"sub 0", 0, 8, 1, 1, BIL_BAD, 0},
    {"sub 20", 20, 8, 1, 1, BIL_BAD, 0},
    {"sub 2^32 - 1", UINT32_MAX, 8, 1, 1, BIL_BAD, 0},
    {"width 0", BIL_PLUS, 0, 0, 0, BIL_BAD, 0},
    {"width 65", BIL_PLUS, 65, 1, 1, BIL_BAD, 0},
    {"width 2^32 - 1", BIL_PLUS, UINT32_MAX, 1, 1, BIL_BAD, 0},
    {"a of 9 bits", BIL_PLUS, 8, 0x100, 1, BIL_BAD, 0},
    {"b of 9 bits", BIL_PLUS, 8, 1, 0x100, BIL_BAD, 0},
    {"div: by zero, a of 9 bits", BIL_DIV, 8, 0x100, 0, BIL_BAD, 0},
};

int main(void)
{
    size_t count = sizeof examples / sizeof examples[0];
    size_t wrong = 0;
    for (size_t i = 0; i < count; i++) {
        const struct example *e = &examples[i];
        uint32_t kind = bil_word_kind(e->sub, e->width, e->a, e->b);
        uint64_t value = bil_word_value(e->sub, e->width, e->a, e->b);
        int as_expected = kind == e->kind && value == e->value;
        printf("%-36s kind %" PRIu32 " value 0x%02" PRIX64 "%s\n", e->words, kind, value,
               as_expected ? "" : "  WRONG");
        wrong += !as_expected;
    }
    printf("%zu examples, %zu wrong\n", count, wrong);
    return wrong != 0;
}
