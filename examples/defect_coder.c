/*
 * defect_coder TABLE VARIABLE < FRAME: a small defect coder. It reads a table that makes a camera's roll, asks both
 * verdicts on it, runs it, and turns the frame upright by the roll that variable VARIABLE, a number from 0, then holds.
 *
 * The roll is a word in hundredths of a degree, how far the camera hangs clockwise. A frame is a text picture, a dot a
 * character of printable ASCII with a space behind it, and square: its widest line has as many dots as there are lines,
 * 1 to 40. A line may be shorter where blanks at its end were dropped. The turned frame goes to standard output.
 *
 * It codes nothing from a table that is refused, not clean, or doesn't run to its end, nor from a roll that isn't
 * known, nor from what is no frame: then it says why in one line on standard error, writes nothing to standard output
 * and ends with 1. It ends with 2 where it is called wrongly.
 */
#include "bil.h"

#include <errno.h>
#include <inttypes.h>
#include <math.h>
#include <stdio.h>
#include <stdlib.h>
#include <string.h>

enum { SIDE = 40, ENTRIES = 2048, BUDGET = 10000 };

/* The lender owns all of it. The library keeps no pointer, so each may live as long as its caller likes. */
static uint8_t table[BIL_TABLE_MOST + 1]; /* one byte more, so that a longer file is seen to be longer */
static uint64_t state[BIL_STATE_MOST];
static uint64_t entries[BIL_ENTRY_SIZE * ENTRIES];
static char frame[SIDE][SIDE];

/* Ends the program: the code and the place say what was refused and where, and the code's text what that means. */
static void refuse(const char *who, uint64_t code, uint64_t place)
{
    fprintf(stderr, "defect_coder: %s: %" PRIu64 " at %" PRIu64 ": %s\n", who, code, place, bil_code_text(code));
    exit(1);
}

/* Ends the program where the system can't read or write something. */
static void fail(const char *what)
{
    fprintf(stderr, "defect_coder: %s: %s\n", what, strerror(errno));
    exit(1);
}

/* Ends the program at a character of the frame; lines and columns are told from 1. */
static void refuse_frame(int line, int column, const char *why)
{
    fprintf(stderr, "defect_coder: the frame is refused at line %d, column %d: %s\n", line + 1, column + 1, why);
    exit(1);
}

/* The number of a variable, from its decimal digits. One too large for C is the largest, which no table has. */
static unsigned long read_variable(const char *word)
{
    if (word[0] == '\0' || word[strspn(word, "0123456789")] != '\0') {
        fprintf(stderr, "defect_coder: VARIABLE is a whole decimal number, and not '%s'\n", word);
        exit(2);
    }
    return strtoul(word, NULL, 10);
}

/* The table's bytes, and how many there are. Whether they are a table is for the check to say. */
static size_t read_table(const char *name)
{
    FILE *file = fopen(name, "rb");
    if (file == NULL)
        fail(name);
    size_t length = fread(table, 1, sizeof table, file);
    if (ferror(file)) /* a folder can be opened, and not be read */
        fail(name);
    fclose(file);
    return length;
}

/* Ends the program where a table is refused or isn't clean. */
static void check(size_t length)
{
    uint32_t code = bil_check_code(table, length);
    if (code != BIL_ACCEPTED)
        refuse("the check refuses the table", code, bil_check_place(table, length));
    code = bil_seal_code(table, length);
    if (code != BIL_CLEAN)
        refuse("the seal check refuses the table", code, bil_seal_place(table, length));
}

/* Runs an accepted table of so many variables to its end, from all of them absent and an empty log. */
static void run(size_t length, size_t variables)
{
    uint64_t out[BIL_OUT_SIZE] = {0};
    memset(state, 0, sizeof state);
    bil_run(table, length, state, 2 * variables, entries, BIL_ENTRY_SIZE * ENTRIES, 0, 0, BUDGET, out, BIL_OUT_SIZE);
    if (out[0] != BIL_DONE)
        refuse("the run stopped", out[0], out[1]);
}

/* The word that a variable holds after the run, one of so many variables. */
static uint64_t word_of(unsigned long variable, size_t variables)
{
    static const char *const others[] = {
        [BIL_PAIR_ABSENT] = "absent", [BIL_PAIR_UNKNOWN] = "unknown", [BIL_PAIR_MEMORY] = "a memory"};
    if (variable >= variables) {
        fprintf(stderr, "defect_coder: VARIABLE is none of the table's %zu variables, which count from 0\n", variables);
        exit(1);
    }
    if (state[2 * variable] != BIL_PAIR_WORD) {
        fprintf(stderr, "defect_coder: variable %lu holds no word after the run: it is %s\n", variable,
                others[state[2 * variable]]);
        exit(1);
    }
    return state[2 * variable + 1];
}

/* Puts a character into the frame. Dots stand in columns 0, 2, 4 and so on, and blanks behind them. */
static void put(int line, int column, int character)
{
    if (column >= 2 * SIDE)
        refuse_frame(line, column, "over 40 dots in a line");
    if (character < ' ' || character > '~')
        refuse_frame(line, column, "no printable ASCII character");
    if (column % 2 == 0)
        frame[line][column / 2] = (char)character;
    else if (character != ' ')
        refuse_frame(line, column, "not a blank, which stands behind each dot");
}

/* Ends the program where a frame is empty or isn't square. */
static void check_square(int height, int widest)
{
    if (height == 0) {
        fprintf(stderr, "defect_coder: the frame is empty\n");
        exit(1);
    }
    if (height != widest) {
        fprintf(stderr, "defect_coder: the frame isn't square: lines %d, dots in the widest line %d\n", height, widest);
        exit(1);
    }
}

/* Reads the frame and gives its side; blanks where a line is shorter. */
static int read_frame(void)
{
    int line = 0, column = 0, widest = 0;
    memset(frame, ' ', sizeof frame);
    for (int character = getchar(); character != EOF; character = getchar()) {
        if (line == SIDE)
            refuse_frame(line, column, "over 40 lines");
        if (character == '\n') {
            line++;
            column = 0;
        } else {
            put(line, column, character);
            column++;
            if (widest < (column + 1) / 2)
                widest = (column + 1) / 2;
        }
    }
    if (ferror(stdin))
        fail("the frame can't be read");
    int height = column > 0 ? line + 1 : line; /* the last line may have no end */
    check_square(height, widest);
    return height;
}

/* Prints a square frame turned clockwise about its middle: each dot is fetched from where it stood. */
static void print_turned(int side, double degrees)
{
    double angle = degrees * acos(-1.0) / 180, middle = (side - 1) / 2.0;
    for (int y = 0; y < side; y++) {
        char line[2 * SIDE + 1];
        int end = 0;
        for (int x = 0; x < side; x++) {
            double right = x - middle, down = y - middle;
            long from_x = lround(middle + right * cos(angle) + down * sin(angle));
            long from_y = lround(middle - right * sin(angle) + down * cos(angle));
            int inside = from_x >= 0 && from_x < side && from_y >= 0 && from_y < side;
            line[2 * x] = inside ? frame[from_y][from_x] : ' ';
            line[2 * x + 1] = ' ';
            if (line[2 * x] != ' ')
                end = 2 * x + 1;
        }
        printf("%.*s\n", end, line);
    }
}

int main(int count, char **words)
{
    if (count != 3) {
        fprintf(stderr, "usage: defect_coder TABLE VARIABLE < FRAME\n");
        return 2;
    }
    unsigned long variable = read_variable(words[2]);
    size_t length = read_table(words[1]);
    check(length);
    size_t variables = bil_variables(table, length);
    run(length, variables);
    uint64_t roll = word_of(variable, variables);
    int side = read_frame();
    printf("roll %" PRIu64 ".%02" PRIu64 "\n", roll / 100, roll % 100);
    print_turned(side, (double)(roll % 36000) / 100); /* whole turns are taken off while the number is exact */
    if (fflush(stdout) != 0 || ferror(stdout))
        fail("the turned frame can't be written");
    return 0;
}
