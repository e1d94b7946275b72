/*
 * stack loop|deep|lets|under BUDGET: runs a table whose loop never ends, on a stack of its own, and prints the ticks that
 * were taken and how many bytes of that stack were used, the call itself counted.
 *
 * The loop of `loop` has one statement that changes nothing. The others go as deep as a table may: statements nest 32
 * deep, and the innermost one's expression is 64 deep. In `deep` it is a chain of nots, in `lets` each let's body is the
 * next let, in `under` a let's body is a chain of nots. Ends with 1 where the run isn't stopped for want of a tick, and
 * with 2 where it can't be asked.
 */
#define _GNU_SOURCE /* for MAP_ANONYMOUS */
#include "bil.h"
#include "records.h"

#include <stdio.h>
#include <stdlib.h>
#include <string.h>
#include <sys/mman.h>
#include <ucontext.h>

uint32_t bil_run(const uint8_t *table, size_t table_len, uint64_t *state, size_t state_len, uint64_t *log,
                 size_t log_len, uint64_t count, uint64_t next, uint32_t budget, uint64_t *out, size_t out_len);

enum { DEPTH = 64, NESTING = 32, NO_TICK = 35, ROOM = 1 << 23, PAINT = 0xA5 };

/* A header, DEPTH variables, 2 * DEPTH + NESTING expressions and NESTING + 1 statements at most. */
static uint8_t table[32 + 8 * DEPTH + 16 * (2 * DEPTH + NESTING) + 16 * (NESTING + 1)];
static size_t length;
static uint64_t state[2 * DEPTH] = {1, 1};
static size_t state_length;
static uint64_t out[5];
static uint32_t budget;

static ucontext_t outside, inside;

static void put(const void *record, size_t size)
{
    memcpy(table + length, record, size);
    length += size;
}

/* The header and the variables: one of the state, and the lets' variables. */
static void put_header(uint32_t lets, uint32_t expressions, uint32_t statements)
{
    uint32_t expressions_at = 40 + 8 * lets, statements_at = expressions_at + 16 * expressions;
    struct header h = {1,          8,             1 + lets, 32, expressions, expressions_at, statements, statements_at,
                       statements_at + 16 * statements};
    struct variable x = {1, 0, 64, 0, 0, {0, 0, 0}}, bound = {1, 0, 64, 0, 1, {0, 0, 0}};
    put(&h, sizeof h);
    put(&x, sizeof x);
    for (uint32_t i = 0; i < lets; i++)
        put(&bound, sizeof bound);
    state_length = 2 * (1 + lets);
}

/* The guards come first: each is the word 1. */
static void put_guards(uint32_t count)
{
    struct expression one = {WORD, 0, 1, 0, 0, 1, 0};
    for (uint32_t i = 0; i < count; i++)
        put(&one, sizeof one);
}

/* while 1 { special 0 } */
static void put_loop(void)
{
    struct statement loop = {WHILE, {0, 0, 0}, 0, 1, 0};
    struct statement special = {SPECIAL, {0, 0, 0}, 0, 0, 0};
    put_header(0, 1, 2);
    put_guards(1);
    put(&loop, sizeof loop);
    put(&special, sizeof special);
}

/* x and nots around it, one more than count in all; gives the last one's number. */
static uint32_t put_nots(uint32_t first, uint32_t count)
{
    struct expression x = {VAR, 0, 0, 0, 0, 0, 0};
    put(&x, sizeof x);
    for (uint32_t i = first; i < first + count; i++) {
        struct expression not = {UNARY, 2, 0, 0, i, 0, 0};
        put(&not, sizeof not);
    }
    return first + count;
}

/* while 1 { if 1 { if 1 { .. x := let 1 := x in let 2 := x in .. not not .. x } } }, DEPTH - 1 lets and nots in all */
static void put_deep(uint32_t lets)
{
    uint32_t guards = NESTING - 1, nots = DEPTH - 1 - lets, last;
    struct expression x = {VAR, 0, 0, 0, 0, 0, 0};
    put_header(lets, guards + nots + 1 + 2 * lets, NESTING);
    put_guards(guards);
    last = put_nots(guards, nots);
    for (uint32_t i = 0; i < lets; i++) {
        struct expression let = {LET, 0, 0, 0, 1 + i, last + 1, last};
        put(&x, sizeof x);
        put(&let, sizeof let);
        last += 2;
    }
    for (uint32_t i = 0; i < guards; i++) {
        struct statement around = {i == 0 ? WHILE : IF, {0, 0, 0}, i, guards - i, 0};
        put(&around, sizeof around);
    }
    struct statement move = {MOVE, {0, 0, 0}, 0, last, 0};
    put(&move, sizeof move);
}

static void run(void)
{
    bil_run(table, length, state, state_length, NULL, 0, 0, 0, budget, out, 5);
}

/* Runs on a painted stack and gives how much of the paint is gone: a stack grows downward. */
static size_t used(uint8_t *stack)
{
    size_t clean = 0;
    memset(stack, PAINT, ROOM);
    getcontext(&inside);
    inside.uc_stack.ss_sp = stack;
    inside.uc_stack.ss_size = ROOM;
    inside.uc_link = &outside;
    makecontext(&inside, run, 0);
    swapcontext(&outside, &inside);
    while (clean < ROOM && stack[clean] == PAINT)
        clean++;
    return ROOM - clean;
}

int main(int count, char **words)
{
    if (count != 3)
        return 2;
    if (strcmp(words[1], "loop") == 0)
        put_loop();
    else if (strcmp(words[1], "deep") == 0)
        put_deep(0);
    else if (strcmp(words[1], "lets") == 0)
        put_deep(DEPTH - 1);
    else if (strcmp(words[1], "under") == 0)
        put_deep(1);
    else
        return 2;
    budget = (uint32_t)strtoul(words[2], NULL, 10);
    uint8_t *stack = mmap(NULL, ROOM, PROT_READ | PROT_WRITE, MAP_PRIVATE | MAP_ANONYMOUS, -1, 0);
    if (stack == MAP_FAILED)
        return 2;
    size_t bytes = used(stack);
    printf("%llu %zu\n", (unsigned long long)out[2], bytes);
    return !(out[0] == NO_TICK && out[2] == budget);
}
