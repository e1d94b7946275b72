/*
 * bil.h: the word operations of BIL, the verdicts of its tables and their run, from the proved library libbil.
 *
 * The library is for x86-64 Linux, in the C calling form. In the repository `make` writes target/staticlib/libbil.a, and
 * `make install` puts it where a compiler finds it:
 *
 *     gcc -Iinclude program.c target/staticlib/libbil.a
 *     gcc program.c $(pkg-config --cflags --libs bil)
 *
 * The functions keep no state and always return the same answer to the same arguments. None writes memory of the
 * caller, save bil_run, which writes the three buffers that it is lent for that. So any number of threads may call them
 * at once, bil_run with buffers of their own. None of them allocates. A thread that calls them needs stack for it: 256 KiB
 * are enough for every table and every budget (measured, not proved: the deepest table found takes 127,312 bytes).
 *
 * All functions of the library are proved. The two that stand here in full, bil_variables and bil_code_text, are plain C
 * (C99 or later, or C++) and are tested.
 */
#ifndef BIL_H
#define BIL_H

#include <stddef.h>
#include <stdint.h>

#ifdef __cplusplus
extern "C" {
#endif

/* The version of this header and of the library it goes with: as text, and as 10,000 major + 100 minor + patch for #if. */
#define BIL_VERSION "0.2.0"
#define BIL_VERSION_NUMBER 200

/*
 * Words. A word is a number below 2^width, of 1 to 64 bits. An operation takes the number of the operation, the width
 * of both operands, and the operands. One function gives the kind of the answer, another its value. Every argument may
 * be any number: bad ones are answered by BIL_BAD.
 */

/*
 * The binary operations, `a` the left operand and `b` the right one. The signed operations read both operands in two's
 * complement. The result has the operands' width, save from BIL_EQ on: these give one bit, 1 for true and 0 for false.
 */
enum bil_sub {
    BIL_PLUS = 1,   /* a + b, modulo 2^width */
    BIL_MINUS = 2,  /* a - b, modulo 2^width */
    BIL_TIMES = 3,  /* a * b, modulo 2^width */
    BIL_DIV = 4,    /* unsigned quotient; unknown where b is 0 */
    BIL_SDIV = 5,   /* signed quotient, rounded toward zero; the lowest number by -1 is itself; unknown where b is 0 */
    BIL_MOD = 6,    /* unsigned remainder; unknown where b is 0 */
    BIL_SMOD = 7,   /* signed remainder, with the sign of a; unknown where b is 0 */
    BIL_AND = 8,    /* bit by bit */
    BIL_OR = 9,     /* bit by bit */
    BIL_XOR = 10,   /* bit by bit */
    BIL_LSL = 11,   /* a shifted left by b; 0 where b is the width or more */
    BIL_LSR = 12,   /* a shifted right by b, zeros shifted in; 0 where b is the width or more */
    BIL_ASR = 13,   /* a shifted right by b, the sign shifted in; all sign where b is the width or more */
    BIL_EQ = 14,    /* a = b */
    BIL_NEQ = 15,   /* a and b differ */
    BIL_LT = 16,    /* a < b, unsigned */
    BIL_LE = 17,    /* a <= b, unsigned */
    BIL_SLT = 18,   /* a < b, signed */
    BIL_SLE = 19    /* a <= b, signed */
};

/* The kinds of an answer. */
enum bil_kind {
    BIL_BAD = 0,    /* sub is not 1 to 19, width is not 1 to 64, or a or b is not below 2^width */
    BIL_WORD = 1,   /* a word, which bil_word_value gives */
    BIL_UNKNOWN = 2 /* no word: BIL_DIV, BIL_SDIV, BIL_MOD or BIL_SMOD by 0 */
};

/* The kind of the answer: one of enum bil_kind. */
uint32_t bil_word_kind(uint32_t sub, uint32_t width, uint64_t a, uint64_t b);

/* The word where the kind for the same arguments is BIL_WORD, and 0 where it is not. */
uint64_t bil_word_value(uint32_t sub, uint32_t width, uint64_t a, uint64_t b);

/*
 * Verdicts. A table is a run of bytes that the caller owns and lends for the length of a call: the library reads
 * table[0] to table[length - 1] and nothing else, writes none of them and keeps no pointer to them. The bytes may be
 * anything and need no alignment, and a table may have any length that C can lend, at most PTRDIFF_MAX: no bytes, half
 * a table, a header that claims 4 GB. The caller sees to it that `length` bytes are there and that no one writes them
 * during the call. `table` may be NULL where `length` is 0, and nowhere else.
 *
 * A code says what is wrong first, and a place says where. Codes come in the order of their numbers and, within a code,
 * the lowest place first. Records count from 0. Each function works its answer out anew, so a caller saves work that
 * asks for a place only where the code is not 0.
 */
enum bil_code {
    BIL_ACCEPTED = 0,       /* of the check: accepted */
    BIL_CLEAN = 0,          /* of the seal check: accepted and clean */
    BIL_SHORT = 1,          /* under 32 bytes */
    BIL_FORMAT = 2,         /* a format that is not 1, or an address width that is not 1 to 64 */
    BIL_COUNT = 3,          /* over 256 variables or 2,048 expressions, or not 1 to 1,024 statements */
    BIL_LAYOUT = 4,         /* an offset, the total or the length is not what the counts give */
    BIL_VARIABLE = 5,       /* a record that no variable has; the place is the variable */
    BIL_EXPRESSION = 6,     /* a record that no expression has, an operand that is not earlier; the expression */
    BIL_STATEMENT = 7,      /* a record that no statement has, a body that ends outside its block; the statement */
    BIL_USES = 8,           /* not used exactly once; the expression */
    BIL_DEPTH = 9,          /* over 64 deep; the expression */
    BIL_NESTING = 10,       /* a nesting over 32; the statement */
    BIL_SCOPE = 11,         /* a let variable read outside its let's body, a let in the body of another of its variable; the
                               var, or the inner let */
    BIL_TYPE = 12,          /* no type; the expression */
    BIL_STATEMENT_TYPE = 13, /* a move, jump or guard of the wrong type; the statement */
    BIL_SEAL = 14,          /* a sealed address, a sealed value let into an open variable; the load, store or let */
    BIL_STATEMENT_SEAL = 15 /* a sealed value moved to an open variable, a sealed jump or guard; the statement */
};

/* The check: its code, BIL_ACCEPTED or BIL_SHORT to BIL_STATEMENT_TYPE, and its place, 0 where the code has none. */
uint32_t bil_check_code(const uint8_t *table, size_t length);
uint32_t bil_check_place(const uint8_t *table, size_t length);

/* The seal check: BIL_CLEAN, what the check refuses or, of an accepted table, BIL_SEAL or BIL_STATEMENT_SEAL; and its place. */
uint32_t bil_seal_code(const uint8_t *table, size_t length);
uint32_t bil_seal_place(const uint8_t *table, size_t length);

/*
 * The run of a table. Its caller lends the table's bytes as above, and three buffers of 64-bit numbers, each with its
 * size in numbers. A buffer may be NULL where its size is 0, and nowhere else. The caller sees to it that so many
 * numbers are there, that the three share no memory with each other or with the table, and that no one else uses them
 * during the call.
 *
 *     state  two numbers a variable: 0, 0 absent; 1, word; 2, 0 unknown; 3, head of a memory, an entry of the log
 *     log    room for entries of four numbers: previous entry (0 or a lower number; entries count from 1), address
 *            width, address, byte (256: unknown); at most 65,536 entries
 *     out    five numbers, which the call writes: code, place, ticks, log count, next address
 *
 * `log_count` is how many entries the log has, `next` the next address, and `budget` the most ticks that the run may
 * take. Any contents and any numbers may be lent: bad ones are answered by a code. What a run leaves can be lent again.
 *
 * The code is BIL_DONE where the run came to the table's end, one of BIL_SHORT to BIL_STATEMENT_TYPE, or one of these. From
 * BIL_SHORT to BIL_PAIR the run was refused: state and log are unchanged, ticks are 0, log count and next address are as
 * given. From BIL_GUARD on it stopped at the statement that is its place, the innermost one: its move isn't done, entries
 * that it appended stay, and its tick counts, save at BIL_NO_TICK. What the run had done till then stays done.
 */
enum bil_run_code {
    BIL_DONE = 0,           /* run to the table's end */
    BIL_START = 16,         /* the size of state (place 0) or of log (1), log_count over the room (2), next (3) */
    BIL_ENTRY = 17,         /* an entry that breaks the log's rules; the entry */
    BIL_PAIR = 18,          /* a pair that its variable cannot have; the variable */
    BIL_GUARD = 32,         /* a guard is unknown */
    BIL_JUMP = 33,          /* a jump is unknown */
    BIL_LOG_FULL = 34,      /* a byte to append, and no room; entries that the statement appended stay */
    BIL_NO_TICK = 35,       /* a tick is needed, and none is left */
    BIL_BINDINGS = 36       /* a let would put a 65th binding in force */
};

/* Sizes, in bytes or in numbers. */
enum bil_size {
    BIL_TABLE_MOST = 51232, /* bytes of the largest table: 256 variables, 2,048 expressions, 1,024 statements */
    BIL_VARIABLES_MOST = 256, /* variables of the largest table */
    BIL_STATE_MOST = 512,   /* numbers of the largest state; the size lent is exactly two a variable of the table */
    BIL_ENTRY_SIZE = 4,     /* numbers of an entry of the log; the size lent is a multiple of it */
    BIL_LOG_MOST = 262144,  /* numbers of the largest log, 65,536 entries; 0 is a log without room */
    BIL_OUT_SIZE = 5        /* numbers of out: code, place, ticks, log count, next address */
};

/* The first number of a variable's pair in the state. All zeros is a state in which every variable is absent. */
enum bil_pair {
    BIL_PAIR_ABSENT = 0,    /* with 0: never written */
    BIL_PAIR_WORD = 1,      /* with the word, below 2^width; of immediate variables */
    BIL_PAIR_UNKNOWN = 2,   /* with 0 */
    BIL_PAIR_MEMORY = 3     /* with the newest entry of its chain, 1 to the log count; of memory variables */
};

/*
 * How many variables an accepted table has: its state is two numbers for each. The count stands in bytes 4 to 7 of the
 * table, the low byte first. Of bytes that are no table it gives some number from 0 to BIL_VARIABLES_MOST, so a buffer of
 * twice as many numbers is never too large; 0 where there are under 32 bytes or the count is over the limit.
 */
static inline size_t bil_variables(const uint8_t *table, size_t length)
{
    uint32_t count;
    if (length < 32)
        return 0;
    count = table[4] | (uint32_t)table[5] << 8 | (uint32_t)table[6] << 16 | (uint32_t)table[7] << 24;
    return count <= BIL_VARIABLES_MOST ? count : 0;
}

/* 1, and the five numbers in out; 0 where out_size is not 5: then nothing is written anywhere. */
uint32_t bil_run(const uint8_t *table, size_t length, uint64_t *state, size_t state_size, uint64_t *log,
                 size_t log_size, uint64_t log_count, uint64_t next, uint32_t budget, uint64_t *out, size_t out_size);

/*
 * What a code says, in the words of docs/FORMAT.md, for a message to people: of a check, a seal check or a run. Any number
 * may be asked for; one that is no code has the text "no such code". The text is never freed and never changes.
 */
static inline const char *bil_code_text(uint64_t code)
{
    switch (code) {
    case BIL_ACCEPTED: return "accepted; clean; done";
    case BIL_SHORT: return "fewer than 32 bytes";
    case BIL_FORMAT: return "the format is not 1, or A is not 1 to 64";
    case BIL_COUNT: return "over 256 variables, over 2,048 expressions, no statement or over 1,024";
    case BIL_LAYOUT: return "an offset, the total or the length is not what the counts give";
    case BIL_VARIABLE: return "no variable has such a record";
    case BIL_EXPRESSION: return "no expression has such a record";
    case BIL_STATEMENT: return "no statement has such a record, or a body ends outside the block around it";
    case BIL_USES: return "an expression is used not at all, or more than once";
    case BIL_DEPTH: return "an expression over 64 deep";
    case BIL_NESTING: return "a statement nested over 32 deep";
    case BIL_SCOPE: return "a let variable read outside its let's body, or a let inside the body of another of the same variable";
    case BIL_TYPE: return "an expression has no type";
    case BIL_STATEMENT_TYPE: return "a move, jump or guard of the wrong type";
    case BIL_SEAL: return "a load or store at a sealed address, or a sealed value bound to an open let variable";
    case BIL_STATEMENT_SEAL: return "a sealed value moved to an open variable, a sealed jump or guard";
    case BIL_START: return "the state is not 2V numbers (place 0); the log is not a multiple of 4 numbers or over 65,536 entries (1); "
                           "the log's count is over its room (2); the next address is not below 2^A (3)";
    case BIL_ENTRY: return "an entry of the log breaks the log's rules";
    case BIL_PAIR: return "a pair that the variable can't have, or a let variable that is not absent";
    case BIL_GUARD: return "a guard is unknown";
    case BIL_JUMP: return "a jump is unknown";
    case BIL_LOG_FULL: return "the log is full when a byte is to be appended";
    case BIL_NO_TICK: return "a tick is needed and none is left";
    case BIL_BINDINGS: return "a let would put a 65th binding in force";
    default: return "no such code";
    }
}

#ifdef __cplusplus
}
#endif

#endif
