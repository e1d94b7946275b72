/*
 * The word functions of bil.h in plain C, so that a program over bil.h links without the archive. They stand apart from
 * the interpreter's own, which is measured as it is: a second caller would change what the compiler makes of it.
 */
#include "bil.h"

static uint64_t mask(uint32_t width)
{
    return UINT64_MAX >> (64 - width);
}

static int64_t as_signed(uint32_t width, uint64_t x)
{
    return (int64_t)(x << (64 - width)) >> (64 - width);
}

uint32_t bil_word_kind(uint32_t sub, uint32_t width, uint64_t a, uint64_t b)
{
    if (sub < BIL_PLUS || sub > BIL_SLE || width < 1 || width > 64 || a > mask(width) || b > mask(width))
        return BIL_BAD;
    return b == 0 && sub >= BIL_DIV && sub <= BIL_SMOD ? BIL_UNKNOWN : BIL_WORD;
}

/* An operation that gives a word, of which the low bits are the answer. */
static uint64_t operate(uint32_t sub, uint32_t width, uint64_t a, uint64_t b)
{
    int64_t x = as_signed(width, a), y = as_signed(width, b);
    switch (sub) {
    case BIL_PLUS: return a + b;
    case BIL_MINUS: return a - b;
    case BIL_TIMES: return a * b;
    case BIL_DIV: return a / b;
    case BIL_SDIV: return y == -1 ? 0 - a : (uint64_t)(x / y); /* C doesn't divide the lowest number by -1 */
    case BIL_MOD: return a % b;
    case BIL_SMOD: return y == -1 ? 0 : (uint64_t)(x % y);
    case BIL_AND: return a & b;
    case BIL_OR: return a | b;
    case BIL_XOR: return a ^ b;
    case BIL_LSL: return b < width ? a << b : 0;
    case BIL_LSR: return b < width ? a >> b : 0;
    case BIL_ASR: return (uint64_t)(x >> (b < width ? b : width - 1));
    case BIL_EQ: return a == b;
    case BIL_NEQ: return a != b;
    case BIL_LT: return a < b;
    case BIL_LE: return a <= b;
    case BIL_SLT: return x < y;
    default: return x <= y; /* BIL_SLE */
    }
}

uint64_t bil_word_value(uint32_t sub, uint32_t width, uint64_t a, uint64_t b)
{
    return bil_word_kind(sub, width, a, b) == BIL_WORD ? operate(sub, width, a, b) & mask(width) : 0;
}
