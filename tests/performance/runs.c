/*
 * runs PROGRAM SIZE TURNS: runs a table that loops for ever for so many turns of its loop, to count the instructions
 * that this takes, and prints what one turn is: its ticks, its expressions, and those of the table.
 *
 * Ends with 1 where the run isn't stopped at the tick after the last turn, so that the work is what it is taken for,
 * and with 2 where there is no such program. SIZE is how many times the body of `binary`, `unary`, `mixed` or `control`
 * stands in the loop, how many lets `lets` has inside each other, how many bits `store` stores, and how many entries
 * `load` walks.
 */
#include "bil.h"
#include "records.h"

#include <stdio.h>
#include <stdlib.h>
#include <string.h>

uint32_t bil_run(const uint8_t *table, size_t table_len, uint64_t *state, size_t state_len, uint64_t *log,
                 size_t log_len, uint64_t count, uint64_t next, uint32_t budget, uint64_t *out, size_t out_len);

/* The variables: two words of 64 bits, one of 1 bit, a memory, then let variables. */
enum { X, Y, BIT, MEM, LETS, VARIABLES = LETS + 63 };

enum { NO_TICK = 35, ENTRIES = 65536 };

static struct variable variables[VARIABLES];
static struct expression expressions[2048];
static struct statement statements[1024];
static uint32_t e_count, s_count;
static uint64_t state[2 * VARIABLES];
static uint64_t entries[4 * ENTRIES];
static uint64_t entry_count;

static uint32_t expression(uint8_t op, uint8_t sub, uint8_t p, uint8_t q, uint32_t a, uint32_t b, uint32_t c)
{
    struct expression e = {op, sub, p, q, a, b, c};
    expressions[e_count] = e;
    return e_count++;
}

static void statement(uint8_t op, uint32_t a, uint32_t b, uint32_t c)
{
    struct statement s = {op, {0, 0, 0}, a, b, c};
    statements[s_count++] = s;
}

static uint32_t var(uint32_t i)
{
    return expression(VAR, 0, 0, 0, i, 0, 0);
}

static uint32_t word(uint8_t width, uint32_t value)
{
    return expression(WORD, 0, width, 0, 0, value, 0);
}

static uint32_t binary(uint8_t sub, uint32_t a, uint32_t b)
{
    return expression(BINARY, sub, 0, 0, a, b, 0);
}

/* A move of 15 expressions: seven binary ones, each of the one before it and a word or y. */
static void add_binary(void)
{
    static const uint8_t subs[] = {1, 10, 3, 2, 9, 1, 8};
    uint32_t e = var(X);
    for (int i = 0; i < 7; i++)
        e = binary(subs[i], e, i % 2 ? var(Y) : word(64, 77));
    statement(MOVE, X, e, 0);
}

/* A move of 15 expressions: neg, not, casts and extracts, each of the one before it. */
static void add_unary(void)
{
    uint32_t e = var(X);
    for (int i = 0; i < 7; i++) {
        e = expression(UNARY, i % 2 + 1, 0, 0, e, 0, 0);
        e = i % 2 ? expression(EXTRACT, 0, 63, 0, e, 0, 0) : expression(CAST, i % 4 + 1, 64, 0, e, 0, 0);
    }
    statement(MOVE, X, e, 0);
}

/* A move of 15 expressions, of every op on words: ite(x lt y, neg x plus y times 3, 63:32 of x above low 32 of y). */
static void add_mixed(void)
{
    uint32_t condition = binary(16, var(X), var(Y));
    uint32_t minus = expression(UNARY, 1, 0, 0, var(X), 0, 0);
    uint32_t then = binary(1, minus, binary(3, var(Y), word(64, 3)));
    uint32_t high = expression(EXTRACT, 0, 63, 32, var(X), 0, 0);
    uint32_t other = expression(CONCAT, 0, 0, 0, high, expression(CAST, 1, 32, 0, var(Y), 0, 0), 0);
    statement(MOVE, X, expression(ITE, 0, 0, 0, condition, then, other), 0);
}

/* Lets inside each other, so many: each binds the variable before it plus 1; the innermost body reads the last. */
static void add_lets(uint32_t depth)
{
    uint32_t bound[63];
    for (uint32_t i = 0; i < depth; i++)
        bound[i] = binary(1, i == 0 ? var(X) : var(LETS + i - 1), word(64, 1));
    uint32_t e = var(LETS + depth - 1);
    for (uint32_t i = depth; i-- > 0;)
        e = expression(LET, 0, 0, 0, LETS + i, bound[i], e);
    statement(MOVE, X, e, 0);
}

/* A store of so many bits at the address in y. */
static void add_store(uint32_t size)
{
    uint32_t value = size == 64 ? var(X) : word(size, 7);
    statement(MOVE, MEM, expression(STORE, 0, size, 0, var(MEM), var(Y), value), 0);
}

/* A load of a byte that is the oldest of a chain of so many entries. */
static void add_load(uint32_t length)
{
    for (uint64_t n = 1; n <= length; n++) {
        uint64_t entry[4] = {n - 1, 64, n, n & 255};
        memcpy(entries + 4 * (n - 1), entry, sizeof entry);
    }
    entry_count = length;
    state[2 * MEM] = 3;
    state[2 * MEM + 1] = length;
    uint32_t byte = expression(LOAD, 0, 8, 0, var(MEM), word(64, 1), 0);
    statement(MOVE, X, expression(CAST, 4, 64, 0, byte, 0, 0), 0);
}

/* An if that goes one way and the other by turns, a jump, and two statements that change nothing. */
static void add_control(void)
{
    statement(IF, var(BIT), 1, 1);
    statement(MOVE, BIT, word(1, 0), 0);
    statement(MOVE, BIT, word(1, 1), 0);
    statement(JMP, word(8, 32), 0, 0);
    statement(CPUEXN, 1, 0, 0);
    statement(SPECIAL, 2, 0, 0);
}

/* The loop's body. What a turn leaves out is one move of each if, with its expression. */
static int add(const char *program, uint32_t size, uint32_t *left_out)
{
    uint32_t repeats = size;
    void (*one)(void) = NULL;
    *left_out = 0;
    if (strcmp(program, "binary") == 0)
        one = add_binary;
    else if (strcmp(program, "unary") == 0)
        one = add_unary;
    else if (strcmp(program, "mixed") == 0)
        one = add_mixed;
    else if (strcmp(program, "control") == 0)
        one = add_control;
    else if (strcmp(program, "lets") == 0)
        add_lets(size);
    else if (strcmp(program, "store") == 0)
        add_store(size);
    else if (strcmp(program, "load") == 0)
        add_load(size);
    else
        return 2;
    for (; one && repeats > 0; repeats--) {
        *left_out += one == add_control;
        one();
    }
    return 0;
}

/* Puts the table's bytes together and gives how many they are. */
static size_t table_of(uint8_t *table)
{
    uint32_t variables_at = 32, expressions_at = 32 + 8 * VARIABLES;
    uint32_t statements_at = expressions_at + 16 * e_count, total = statements_at + 16 * s_count;
    struct header h = {1, 8, VARIABLES, variables_at, e_count, expressions_at, s_count, statements_at, total};
    memcpy(table, &h, sizeof h);
    memcpy(table + variables_at, variables, 8 * VARIABLES);
    memcpy(table + expressions_at, expressions, 16 * e_count);
    memcpy(table + statements_at, statements, 16 * s_count);
    return total;
}

static void declare(void)
{
    for (uint32_t i = 0; i < VARIABLES; i++) {
        struct variable word_64 = {1, 0, 64, 0, i >= LETS, {0, 0, 0}};
        variables[i] = word_64;
    }
    variables[BIT].width = 1;
    variables[MEM].kind = 2;
    variables[MEM].width = 8;
    variables[MEM].address_width = 64;
    state[2 * X] = state[2 * Y] = state[2 * BIT] = 1;
    state[2 * X + 1] = 12345;
    state[2 * Y + 1] = 678;
}

int main(int count, char **words)
{
    static uint8_t table[1 << 16];
    uint32_t left_out;
    uint64_t out[5];
    if (count != 4)
        return 2;
    declare();
    statement(WHILE, word(1, 1), 0, 0);
    if (add(words[1], (uint32_t)atol(words[2]), &left_out) != 0)
        return 2;
    statements[0].b = s_count - 1;
    uint32_t ticks = s_count - left_out, turns = (uint32_t)atol(words[3]);
    printf("%u %u %u\n", ticks, e_count - left_out, e_count);
    bil_run(table, table_of(table), state, 2 * VARIABLES, entries, 4 * ENTRIES, entry_count, 0, ticks * turns, out, 5);
    return !(out[0] == NO_TICK && out[1] == 0 && out[2] == ticks * turns);
}
