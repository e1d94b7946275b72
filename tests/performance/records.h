/*
 * records.h: the header and the records of a table as they lie in its bytes, little-endian without gaps, as on x86-64.
 */
#ifndef RECORDS_H
#define RECORDS_H

#include <stdbool.h>
#include <stdint.h>

/* The ops of expressions. */
enum { VAR = 1, WORD, LOAD, STORE, BINARY, UNARY, CAST, LET, UNKNOWN, ITE, EXTRACT, CONCAT };

/* The ops of statements. */
enum { MOVE = 1, JMP, CPUEXN, SPECIAL, WHILE, IF };

struct header {
    uint16_t format, width;
    uint32_t variables, variables_at, expressions, expressions_at, statements, statements_at, total;
};

struct variable {
    uint8_t kind, label, width, address_width, role, zeros[3];
};

struct expression {
    uint8_t op, sub, p, q;
    uint32_t a, b, c;
};

struct statement {
    uint8_t op, zeros[3];
    uint32_t a, b, c;
};

_Static_assert(sizeof(struct header) == 32, "a header has 32 bytes");
_Static_assert(sizeof(struct variable) == 8, "a variable has 8 bytes");
_Static_assert(sizeof(struct expression) == 16, "an expression has 16 bytes");
_Static_assert(sizeof(struct statement) == 16, "a statement has 16 bytes");

#endif
