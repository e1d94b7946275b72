/*
 * Runs tables over a pipe, with bil_run of bil.h, so that a test on any machine can ask it.
 *
 * Reads requests from standard input until it ends. A request is a header of eight 64-bit numbers: the table's bytes, the
 * state's numbers, the log's numbers, how many of these are sent, the out slice's numbers, the log count, the next address
 * and the budget; then the table, the state, and the log's numbers that are sent. The others are filled by `filler`.
 * Writes an answer for each to standard output: what bil_run returned and what it hurt, 64 bits each, then the whole
 * out slice, the whole state and the whole log. All numbers are little-endian, as on x86-64.
 *
 * A slice is lent right below memory that can't be touched, so that a step past its end stops the driver, and with
 * canaries before it. Hurt is a sum: 1 a canary of the table or the table itself, 2 of the state, 4 of the log, 8 of out.
 * Ends with 1 where the input ends inside a request, a request is too long or an answer can't be written.
 */
#define _DEFAULT_SOURCE
#include "bil.h"

#include <stdio.h>
#include <string.h>
#include <sys/mman.h>

enum { CANARIES = 64, GUARD = 1 << 16, ROOM = 1 << 22 };
enum { TABLE, STATE, LOG, OUT, SLICES };

static const uint64_t canary = 0xC0FFEE5EA1CA4A17;
static uint8_t *rooms[SLICES];
static uint8_t copy[ROOM];

static int wrong(const char *why)
{
    fprintf(stderr, "driver: %s\n", why);
    return 1;
}

/* What a log has where no number was sent, and what out has before a run. */
static uint64_t filler(uint64_t i)
{
    return (i + 1) * 0x9E3779B97F4A7C15;
}

/* Memory for a slice, ROOM bytes and behind them some that can't be touched; NULL where there is none. */
static uint8_t *make_room(void)
{
    uint8_t *room = mmap(NULL, ROOM + GUARD, PROT_READ | PROT_WRITE, MAP_PRIVATE | MAP_ANONYMOUS, -1, 0);
    return room == MAP_FAILED || mprotect(room + ROOM, GUARD, PROT_NONE) != 0 ? NULL : room;
}

/* A slice of so many bytes at its room's end, with canaries before it. */
static void *lend(int slice, size_t bytes)
{
    uint8_t *start = rooms[slice] + ROOM - bytes;
    for (size_t i = 1; i <= CANARIES; i++)
        memcpy(start - 8 * i, &canary, 8);
    return start;
}

/* Whether a canary before a slice isn't what it was. */
static uint64_t hurt(int slice, const void *start)
{
    uint64_t any = 0;
    for (size_t i = 1; i <= CANARIES; i++)
        any |= memcmp((const uint8_t *)start - 8 * i, &canary, 8) != 0;
    return any << slice;
}

/* Reads a request whose header is read, runs it and writes the answer. */
static int answer(const uint64_t header[8])
{
    size_t length = header[0], numbers = header[1], log_numbers = header[2], sent = header[3], out_numbers = header[4];
    size_t most = ROOM / 8 - CANARIES;
    if (length > ROOM - 8 * CANARIES || numbers > most || log_numbers > most || sent > log_numbers || out_numbers > most)
        return wrong("a request is too long");
    uint8_t *table = lend(TABLE, length);
    uint64_t *state = lend(STATE, 8 * numbers);
    uint64_t *log = lend(LOG, 8 * log_numbers);
    uint64_t *out = lend(OUT, 8 * out_numbers);
    if (fread(table, 1, length, stdin) != length || fread(state, 8, numbers, stdin) != numbers ||
        fread(log, 8, sent, stdin) != sent)
        return wrong("the input ends inside a request");
    memcpy(copy, table, length);
    for (size_t i = sent; i < log_numbers; i++)
        log[i] = filler(i);
    for (size_t i = 0; i < out_numbers; i++)
        out[i] = filler(i);

    uint64_t first[2] = {bil_run(table, length, state, numbers, log, log_numbers, header[5], header[6],
                                 (uint32_t)header[7], out, out_numbers)};
    first[1] = hurt(TABLE, table) | hurt(STATE, state) | hurt(LOG, log) | hurt(OUT, out) |
               (memcmp(copy, table, length) != 0);
    if (fwrite(first, sizeof first, 1, stdout) != 1 || fwrite(out, 8, out_numbers, stdout) != out_numbers ||
        fwrite(state, 8, numbers, stdout) != numbers || fwrite(log, 8, log_numbers, stdout) != log_numbers)
        return 1;
    return 0;
}

int main(void)
{
    for (int i = 0; i < SLICES; i++)
        if ((rooms[i] = make_room()) == NULL)
            return wrong("there is no memory for requests");

    uint64_t header[8];
    size_t got;
    while ((got = fread(header, 1, sizeof header, stdin)) == sizeof header)
        if (answer(header) != 0)
            return 1;
    if (got != 0)
        return wrong("the input ends inside a header");
    return ferror(stdin) || fflush(stdout) != 0;
}
