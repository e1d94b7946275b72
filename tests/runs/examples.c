/*
 * A C program over bil.h and the archive, as a user of the library would write one: the scope's runs, each of its easy
 * slips, and a refusal of each sort. Every number that is expected is written out. Prints a line for each example, and
 * ends with 1 if a number is not as expected.
 */
#include "bil.h"

#include <inttypes.h>
#include <stdio.h>
#include <string.h>

enum { VARIABLES = 3, EXPRESSIONS = 10, STATEMENTS = 3, LOG = 24 };

/* Records as they lie in a table: x86-64 has its numbers in the table's byte order. */
struct variable {
    uint8_t kind, label, width, address_width, role, zeros[3];
};
struct expression {
    uint8_t op, sub, p, q;
    uint32_t a, b, c;
};
struct statement {
    uint8_t op, zeros[3];
    uint32_t a, b, c;
};

#define IMMEDIATE(width) {1, 0, width, 0, 0, {0}}
#define MEMORY(address_width) {2, 0, 8, address_width, 0, {0}}
#define LET_VARIABLE(width) {1, 0, width, 0, 1, {0}}

#define VAR(v) {1, 0, 0, 0, v, 0, 0}
#define WORD(width, value) {2, 0, width, 0, 0, value, 0}
#define LOAD_LITTLE(size, m, at) {3, 0, size, 0, m, at, 0}
#define STORE_LITTLE(size, m, at, value) {4, 0, size, 0, m, at, value}
#define STORE_BIG(size, m, at, value) {4, 0, size, 1, m, at, value}
#define BINARY(sub, a, b) {5, sub, 0, 0, a, b, 0}
#define HIGH(width, a) {7, 2, width, 0, a, 0, 0}
#define SIGNED(width, a) {7, 3, width, 0, a, 0, 0}
#define LET(v, bound, body) {8, 0, 0, 0, v, bound, body}
#define UNKNOWN(width) {9, 0, width, 0, 0, 0, 0}
#define ITE(condition, yes, no) {10, 0, 0, 0, condition, yes, no}
#define EXTRACT(high, low, a) {11, 0, high, low, a, 0, 0}

#define MOVE(v, e) {1, {0}, v, e, 0}
#define JMP(e) {2, {0}, e, 0, 0}
#define CPUEXN(n) {3, {0}, n, 0, 0}
#define WHILE(guard, body) {5, {0}, guard, body, 0}
#define IF(guard, yes, no) {6, {0}, guard, yes, no}

/* A table with 8-bit addresses, a start, and what is to come: a record of zeros ends a list, the log has `room` entries. */
struct example {
    const char *words;
    struct variable variables[VARIABLES + 1];
    struct expression expressions[EXPRESSIONS + 1];
    struct statement statements[STATEMENTS + 1];
    uint64_t state[2 * VARIABLES];
    uint64_t log[LOG];
    uint64_t room, count, next;
    uint32_t budget;
    /* code, place, ticks, log count, next address */
    uint64_t out[5];
    uint64_t state_after[2 * VARIABLES];
    uint64_t log_after[LOG];
};

/* while x neq 0 { x := x minus 1 } */
#define COUNT_DOWN                                                                                                     \
    {IMMEDIATE(8)}, {VAR(0), WORD(8, 0), BINARY(BIL_NEQ, 0, 1), VAR(0), WORD(8, 1), BINARY(BIL_MINUS, 3, 4)},          \
    {                                                                                                                  \
        WHILE(2, 1), MOVE(0, 5)                                                                                        \
    }

/* x := one expression over words, the last of them */
#define VALUE_OF(width, ...)                                                                                           \
    {IMMEDIATE(width)}, {__VA_ARGS__},                                                                                 \
    {                                                                                                                  \
        MOVE(0, sizeof((struct expression[]){__VA_ARGS__}) / sizeof(struct expression) - 1)                            \
    }

static const struct example examples[] = {
    /* the scope's runs */
    {"jmp 0x20, jmp 0x30", {{0}}, {WORD(8, 0x20), WORD(8, 0x30)}, {JMP(0), JMP(1)}, {0}, {0}, 0, 0, 0, 100,
     {0, 0, 2, 0, 0x30}, {0}, {0}},
    {"x = 3 counted down, budget 7", COUNT_DOWN, {1, 3}, {0}, 0, 0, 9, 7, {0, 0, 7, 0, 9}, {1, 0}, {0}},
    {"x = 3 counted down, budget 6", COUNT_DOWN, {1, 3}, {0}, 0, 0, 9, 6, {35, 0, 6, 0, 9}, {1, 0}, {0}},
    {"x = 3 counted down, budget 5", COUNT_DOWN, {1, 3}, {0}, 0, 0, 9, 5, {35, 1, 5, 0, 9}, {1, 1}, {0}},
    {"x = 3 counted down, budget 0", COUNT_DOWN, {1, 3}, {0}, 0, 0, 9, 0, {35, 0, 0, 0, 9}, {1, 3}, {0}},
    {"a big store that wraps, a little load",
     {MEMORY(8), IMMEDIATE(16)},
     {VAR(0), WORD(8, 0xFF), WORD(16, 0x1234), STORE_BIG(16, 0, 1, 2), VAR(0), WORD(8, 0xFF), LOAD_LITTLE(16, 4, 5)},
     {MOVE(0, 3), MOVE(1, 6)}, {0}, {0}, 6, 0, 0, 100,
     {0, 0, 2, 2, 0}, {3, 2, 1, 0x3412}, {0, 8, 0xFF, 0x12, 1, 8, 0, 0x34}},

    /* the scope's values */
    {"sdiv 0x80, 0xFF", VALUE_OF(8, WORD(8, 0x80), WORD(8, 0xFF), BINARY(BIL_SDIV, 0, 1)), {0}, {0}, 0, 0, 0, 1,
     {0, 0, 1, 0, 0}, {1, 0x80}, {0}},
    {"sdiv 0xF9, 2", VALUE_OF(8, WORD(8, 0xF9), WORD(8, 2), BINARY(BIL_SDIV, 0, 1)), {0}, {0}, 0, 0, 0, 1,
     {0, 0, 1, 0, 0}, {1, 0xFD}, {0}},
    {"smod 0xF9, 2", VALUE_OF(8, WORD(8, 0xF9), WORD(8, 2), BINARY(BIL_SMOD, 0, 1)), {0}, {0}, 0, 0, 0, 1,
     {0, 0, 1, 0, 0}, {1, 0xFF}, {0}},
    {"smod 7, 0xFE", VALUE_OF(8, WORD(8, 7), WORD(8, 0xFE), BINARY(BIL_SMOD, 0, 1)), {0}, {0}, 0, 0, 0, 1,
     {0, 0, 1, 0, 0}, {1, 1}, {0}},
    {"asr 0x80, 8", VALUE_OF(8, WORD(8, 0x80), WORD(8, 8), BINARY(BIL_ASR, 0, 1)), {0}, {0}, 0, 0, 0, 1,
     {0, 0, 1, 0, 0}, {1, 0xFF}, {0}},
    {"lsr 0x80, 8", VALUE_OF(8, WORD(8, 0x80), WORD(8, 8), BINARY(BIL_LSR, 0, 1)), {0}, {0}, 0, 0, 0, 1,
     {0, 0, 1, 0, 0}, {1, 0}, {0}},
    {"slt 0x80, 0x7F", VALUE_OF(1, WORD(8, 0x80), WORD(8, 0x7F), BINARY(BIL_SLT, 0, 1)), {0}, {0}, 0, 0, 0, 1,
     {0, 0, 1, 0, 0}, {1, 1}, {0}},
    {"lt 0x80, 0x7F", VALUE_OF(1, WORD(8, 0x80), WORD(8, 0x7F), BINARY(BIL_LT, 0, 1)), {0}, {0}, 0, 0, 0, 1,
     {0, 0, 1, 0, 0}, {1, 0}, {0}},
    {"extract 9:2 of 0xFF", VALUE_OF(8, WORD(8, 0xFF), EXTRACT(9, 2, 0)), {0}, {0}, 0, 0, 0, 1, {0, 0, 1, 0, 0},
     {1, 0x3F}, {0}},
    {"high 4 of 0xA5", VALUE_OF(4, WORD(8, 0xA5), HIGH(4, 0)), {0}, {0}, 0, 0, 0, 1, {0, 0, 1, 0, 0}, {1, 0xA}, {0}},
    {"signed 16 of 0x80", VALUE_OF(16, WORD(8, 0x80), SIGNED(16, 0)), {0}, {0}, 0, 0, 0, 1, {0, 0, 1, 0, 0},
     {1, 0xFF80}, {0}},
    {"div 5, 0", VALUE_OF(8, WORD(8, 5), WORD(8, 0), BINARY(BIL_DIV, 0, 1)), {1, 7}, {0}, 0, 0, 0, 1,
     {0, 0, 1, 0, 0}, {2, 0}, {0}},

    /* the easy slips */
    {"the rest of a block after a jmp runs", {IMMEDIATE(8)}, {WORD(1, 1), WORD(8, 0x20), WORD(8, 5)},
     {IF(0, 2, 0), JMP(1), MOVE(0, 2)}, {0}, {0}, 0, 0, 0, 100, {0, 0, 3, 0, 0x20}, {1, 5}, {0}},
    {"both branches of an ite, else first", {MEMORY(8)},
     {WORD(1, 1), VAR(0), WORD(8, 0x40), WORD(8, 1), STORE_LITTLE(8, 1, 2, 3), VAR(0), WORD(8, 0x50), WORD(8, 2),
      STORE_LITTLE(8, 5, 6, 7), ITE(0, 4, 8)},
     {MOVE(0, 9)}, {0}, {0}, 6, 0, 0, 100, {0, 0, 1, 2, 0}, {3, 2}, {0, 8, 0x50, 2, 0, 8, 0x40, 1}},
    {"an unknown guard of an if", {IMMEDIATE(8)}, {WORD(8, 1), UNKNOWN(1), WORD(8, 2)},
     {MOVE(0, 0), IF(1, 1, 0), MOVE(0, 2)}, {0}, {0}, 0, 0, 4, 100, {32, 1, 2, 0, 4}, {1, 1}, {0}},
    {"an unknown guard of a while", {IMMEDIATE(8)}, {WORD(8, 1), UNKNOWN(1), WORD(8, 2)},
     {MOVE(0, 0), WHILE(1, 1), MOVE(0, 2)}, {0}, {0}, 0, 0, 4, 100, {32, 1, 2, 0, 4}, {1, 1}, {0}},
    {"unknown times 0", VALUE_OF(8, UNKNOWN(8), WORD(8, 0), BINARY(BIL_TIMES, 0, 1)), {1, 7}, {0}, 0, 0, 0, 1,
     {0, 0, 1, 0, 0}, {2, 0}, {0}},
    {"a memory of 4-bit addresses wraps there", {MEMORY(4)},
     {VAR(0), WORD(4, 0xF), WORD(16, 0xABCD), STORE_LITTLE(16, 0, 1, 2)}, {MOVE(0, 3)}, {0}, {0}, 2, 0, 0, 100,
     {0, 0, 1, 2, 0}, {3, 2}, {0, 4, 0xF, 0xCD, 1, 4, 0, 0xAB}},
    {"a let that hides an outer one is refused", {IMMEDIATE(8), LET_VARIABLE(8)},
     {WORD(8, 1), WORD(8, 2), VAR(1), LET(1, 1, 2), LET(1, 0, 3)}, {MOVE(0, 4)}, {1, 7, 0, 0}, {0}, 1, 0, 3, 100,
     {11, 3, 0, 0, 3}, {1, 7, 0, 0}, {0}},

    /* stops */
    {"an unknown jump", {{0}}, {WORD(8, 0x20), UNKNOWN(8)}, {JMP(0), JMP(1)}, {0}, {0}, 0, 0, 3, 100,
     {33, 1, 2, 0, 0x20}, {0}, {0}},
    {"a log that is full within a store", {MEMORY(8)},
     {VAR(0), WORD(8, 0x10), WORD(24, 0x123456), STORE_LITTLE(24, 0, 1, 2)}, {CPUEXN(1), MOVE(0, 3)}, {3, 1},
     {0, 8, 2, 256}, 3, 1, 0, 100, {34, 1, 2, 3, 0}, {3, 1}, {0, 8, 2, 256, 1, 8, 0x10, 0x56, 2, 8, 0x11, 0x34}},
    {"a moved absent variable is unknown", {IMMEDIATE(8), IMMEDIATE(8)}, {VAR(1)}, {MOVE(0, 0)}, {1, 7, 0, 0}, {0}, 0, 0,
     0, 100, {0, 0, 1, 0, 0}, {2, 0, 0, 0}, {0}},

    /* refused starts: all is left as it was */
    {"a log count over its room", {IMMEDIATE(8)}, {WORD(8, 1)}, {MOVE(0, 0)}, {1, 7}, {0}, 2, 3, 0, 100,
     {16, 2, 0, 3, 0}, {1, 7}, {0}},
    {"a next address of 9 bits", {IMMEDIATE(8)}, {WORD(8, 1)}, {MOVE(0, 0)}, {1, 7}, {0}, 2, 0, 0x100, 100,
     {16, 3, 0, 0, 0x100}, {1, 7}, {0}},
    {"an entry with byte 257", {IMMEDIATE(8)}, {WORD(8, 1)}, {MOVE(0, 0)}, {1, 7}, {0, 8, 1, 256, 1, 8, 2, 257}, 2, 2,
     0, 100, {17, 2, 0, 2, 0}, {1, 7}, {0, 8, 1, 256, 1, 8, 2, 257}},
    {"a head of another address width", {IMMEDIATE(8), MEMORY(16)}, {WORD(8, 1)}, {MOVE(0, 0)}, {1, 7, 3, 1},
     {0, 8, 1, 256}, 2, 1, 0, 100, {18, 1, 0, 1, 0}, {1, 7, 3, 1}, {0, 8, 1, 256}},
};

/* What a log has beyond its count here; no run may change it. */
static const uint64_t beyond = 0x7777777777777777;

static size_t tried, wrong;

/* Prints an example's numbers, and counts it. */
static void report(const char *words, const uint64_t out[5], int as_expected)
{
    printf("%-42s %2" PRIu64 " %2" PRIu64 " %" PRIu64 " %" PRIu64 " %" PRIu64 "%s\n", words, out[0], out[1], out[2],
           out[3], out[4], as_expected ? "" : "  WRONG");
    tried++;
    wrong += !as_expected;
}

/* Puts numbers of 4 bytes into a table. */
static uint8_t *put(uint8_t *to, const uint32_t *numbers, size_t count)
{
    memcpy(to, numbers, 4 * count);
    return to + 4 * count;
}

/* Writes a table with 8-bit addresses. Gives its length. */
static size_t write_table(uint8_t *table, const struct variable *variables, uint32_t v,
                          const struct expression *expressions, uint32_t e, const struct statement *statements,
                          uint32_t s)
{
    uint32_t header[8] = {1 + (8 << 16), v, 32, e, 32 + 8 * v, s, 32 + 8 * v + 16 * e, 32 + 8 * v + 16 * e + 16 * s};
    uint8_t *to = put(table, header, 8);
    memcpy(to, variables, 8 * v);
    memcpy(to + 8 * v, expressions, 16 * e);
    memcpy(to + 8 * v + 16 * e, statements, 16 * s);
    return header[7];
}

static void try_example(const struct example *x)
{
    uint32_t v = 0, e = 0, s = 0;
    while (x->variables[v].kind != 0)
        v++;
    while (x->expressions[e].op != 0)
        e++;
    while (x->statements[s].op != 0)
        s++;
    uint8_t table[1024];
    size_t length = write_table(table, x->variables, v, x->expressions, e, x->statements, s);

    uint64_t state[2 * VARIABLES], log[LOG], log_after[LOG], out[5];
    size_t given = x->count <= x->room ? x->count : 0, kept = x->out[3] <= x->room ? x->out[3] : 0;
    memcpy(state, x->state, sizeof state);
    for (size_t i = 0; i < LOG; i++) {
        log[i] = i < 4 * given ? x->log[i] : beyond;
        log_after[i] = i < 4 * kept ? x->log_after[i] : beyond;
    }
    uint32_t written =
        bil_run(table, length, state, 2 * v, log, 4 * x->room, x->count, x->next, x->budget, out, 5);
    report(x->words, out,
           written == 1 && memcmp(out, x->out, sizeof out) == 0 && memcmp(state, x->state_after, sizeof state) == 0 &&
               memcmp(log, log_after, sizeof log) == 0);
}

/* The scope's 72 bytes, with the start that `bilrun` has. */
static void try_scope(void)
{
    static const uint8_t table[72] = {
        0x01, 0x00, 0x08, 0x00, 0x01, 0x00, 0x00, 0x00, 0x20, 0x00, 0x00, 0x00, 0x01, 0x00, 0x00, 0x00, /* header */
        0x28, 0x00, 0x00, 0x00, 0x01, 0x00, 0x00, 0x00, 0x38, 0x00, 0x00, 0x00, 0x48, 0x00, 0x00, 0x00,
        0x01, 0x00, 0x08, 0x00, 0x00, 0x00, 0x00, 0x00,                                                 /* x */
        0x02, 0x00, 0x08, 0x00, 0x00, 0x00, 0x00, 0x00, 0x05, 0x00, 0x00, 0x00, 0x00, 0x00, 0x00, 0x00, /* word 5 */
        0x01, 0x00, 0x00, 0x00, 0x00, 0x00, 0x00, 0x00, 0x00, 0x00, 0x00, 0x00, 0x00, 0x00, 0x00, 0x00, /* move */
    };
    static uint64_t log[4 * 2048];
    const uint64_t want[5] = {0, 0, 1, 0, 0};
    uint64_t state[2] = {0, 0}, out[5];
    uint32_t written = bil_run(table, sizeof table, state, 2, log, 4 * 2048, 0, 0, 10000, out, 5);
    report("the scope's 72 bytes", out,
           written == 1 && memcmp(out, want, sizeof out) == 0 && state[0] == 1 && state[1] == 5);
}

/* neg of neg of .. of the word 5, so many expressions deep, moved to x */
static void try_depth(uint32_t depth, const uint64_t want[5], uint64_t x_kind, uint64_t x_word)
{
    struct variable x = IMMEDIATE(8);
    struct expression expressions[65] = {WORD(8, 5)};
    struct statement move = MOVE(0, depth - 1);
    for (uint32_t i = 1; i < depth; i++)
        expressions[i] = (struct expression){6, 1, 0, 0, i - 1, 0, 0};
    uint8_t table[2048];
    size_t length = write_table(table, &x, 1, expressions, depth, &move, 1);
    uint64_t state[2] = {0, 0}, out[5];
    uint32_t written = bil_run(table, length, state, 2, NULL, 0, 0, 0, 100, out, 5);
    report(depth == 64 ? "an expression of depth 64" : "an expression of depth 65", out,
           written == 1 && memcmp(out, want, sizeof out) == 0 && state[0] == x_kind && state[1] == x_word);
}

/* Lengths that aren't what they should be: of the state, of the log, of out, and of a table that isn't there. */
static void try_lengths(void)
{
    struct variable x = IMMEDIATE(8);
    struct expression five = WORD(8, 5);
    struct statement move = MOVE(0, 0);
    uint8_t table[128];
    size_t length = write_table(table, &x, 1, &five, 1, &move, 1);
    uint64_t state[3] = {1, 7, 0}, log[5] = {1, 2, 3, 4, 5};
    const uint64_t want[3][5] = {{16, 0, 0, 0, 2}, {16, 1, 0, 0, 2}, {1, 0, 0, 8, 9}};
    uint64_t out[5];
    uint32_t written = bil_run(table, length, state, 3, log, 5, 0, 2, 100, out, 5);
    report("a state of three numbers", out, written == 1 && memcmp(out, want[0], sizeof out) == 0 && state[1] == 7);
    written = bil_run(table, length, state, 2, log, 5, 0, 2, 100, out, 5);
    report("a log of five numbers", out, written == 1 && memcmp(out, want[1], sizeof out) == 0 && state[1] == 7);
    written = bil_run(NULL, 0, NULL, 0, NULL, 0, 8, 9, 100, out, 5);
    report("no table, no state, no log", out, written == 1 && memcmp(out, want[2], sizeof out) == 0);

    uint64_t other[6] = {beyond, beyond, beyond, beyond, beyond, beyond}, untouched[6];
    memcpy(untouched, other, sizeof other);
    written = bil_run(table, length, state, 2, log, 4, 0, 2, 100, other, 4);
    written |= bil_run(table, length, state, 2, log, 4, 0, 2, 100, other, 6);
    written |= bil_run(table, length, state, 2, log, 4, 0, 2, 100, NULL, 0);
    report("out slices of 4, 6 and 0 numbers", (const uint64_t[5]){0},
           written == 0 && memcmp(other, untouched, sizeof other) == 0 && state[1] == 7 && log[0] == 1);
}

int main(void)
{
    try_scope();
    for (size_t i = 0; i < sizeof examples / sizeof examples[0]; i++)
        try_example(&examples[i]);
    /* an odd number of negs: 256 - 5 */
    try_depth(64, (const uint64_t[5]){0, 0, 1, 0, 0}, 1, 251);
    try_depth(65, (const uint64_t[5]){9, 64, 0, 0, 0}, 0, 0);
    try_lengths();
    printf("%zu examples, %zu wrong\n", tried, wrong);
    return wrong != 0;
}
