/*
 * A plain C run of a table: refusals 1 to 13 by the plain C checker, 16 to 18 here, then evaluation by recursion on
 * operands, written for speed and not proved. Records are read where they lie in the table's bytes, a value is two
 * registers, and the bindings in force are one array that every call is handed by pointer.
 *
 * With -DBY_VALUE every call is handed the bindings by value, as paper 01 has it: what that form costs by itself.
 */
#include "interpreter.h"
#include "peer.h"
#include "records.h"

#include <string.h>

enum { MOST_BINDINGS = 64, MOST_ENTRIES = 65536, UNKNOWN_BYTE = 256 };

/* The stops of a run. */
enum { GUARD_UNKNOWN = 32, JUMP_UNKNOWN, LOG_FULL, NO_TICK, TOO_MANY_BINDINGS };

/* The kinds of values, as a state has them. An evaluation that stopped gives STOPPED; in a state 0 is absent. */
enum { STOPPED = 0, A_WORD, AN_UNKNOWN, A_MEMORY };

/* A word, its width and its bits; unknown, 0 and 0; or a memory, its address width and its head. */
struct value {
    uint32_t kind, width;
    uint64_t number;
};

/* An entry of the log. */
struct entry {
    uint64_t previous, width, address, byte;
};

/* The bindings in force, the outermost first. */
struct bindings {
    uint8_t variables[MOST_BINDINGS];
    uint8_t kinds[MOST_BINDINGS];
    uint8_t widths[MOST_BINDINGS];
    uint64_t numbers[MOST_BINDINGS];
    size_t count;
};

/* How eval is handed the bindings that a pointer leads to. */
#ifdef BY_VALUE
typedef struct bindings passed_bindings;
#define HANDED(bindings) (*(bindings))
#define OWN(bindings) (&(bindings))
#else
typedef struct bindings *passed_bindings;
#define HANDED(bindings) (bindings)
#define OWN(bindings) (bindings)
#endif

/* What a run works on. */
struct machine {
    const uint8_t *variables, *expressions, *statements;
    uint64_t *state;
    struct entry *log;
    uint64_t count, room; /* entries that the log has, and that it has room for */
    uint64_t next;
    uint32_t ticks;       /* that are left */
    uint32_t code, place; /* of a stop */
};

static struct variable variable(const struct machine *m, uint32_t i)
{
    struct variable v;
    memcpy(&v, m->variables + 8 * (size_t)i, sizeof v);
    return v;
}

static struct expression expression(const struct machine *m, uint32_t i)
{
    struct expression e;
    memcpy(&e, m->expressions + 16 * (size_t)i, sizeof e);
    return e;
}

static struct statement statement(const struct machine *m, uint32_t i)
{
    struct statement s;
    memcpy(&s, m->statements + 16 * (size_t)i, sizeof s);
    return s;
}

/* Words of 1 to 64 bits. */

static uint64_t mask(uint32_t width)
{
    return UINT64_MAX >> (64 - width);
}

static int64_t as_signed(uint32_t width, uint64_t x)
{
    return (int64_t)(x << (64 - width)) >> (64 - width);
}

/* Values. */

static const struct value unknown = {AN_UNKNOWN, 0, 0};
static const struct value stopped = {STOPPED, 0, 0};

static struct value word(uint32_t width, uint64_t bits)
{
    struct value v = {A_WORD, width, bits};
    return v;
}

static struct value memory(uint32_t width, uint64_t head)
{
    struct value v = {A_MEMORY, width, head};
    return v;
}

/* Div, sdiv, mod and smod. */
static struct value divide(uint32_t sub, uint32_t w, uint64_t a, uint64_t b)
{
    if (b == 0)
        return unknown;
    if (sub == 4)
        return word(w, a / b);
    if (sub == 6)
        return word(w, a % b);
    int64_t x = as_signed(w, a), y = as_signed(w, b);
    if (y == -1) /* which C does not divide the lowest number by */
        return word(w, sub == 5 ? (0 - a) & mask(w) : 0);
    return word(w, (uint64_t)(sub == 5 ? x / y : x % y) & mask(w));
}

static struct value binary(uint32_t sub, struct value x, struct value y)
{
    if (x.kind != A_WORD || y.kind != A_WORD)
        return unknown;
    uint32_t w = x.width;
    uint64_t a = x.number, b = y.number;
    switch (sub) {
    case 1:
        return word(w, (a + b) & mask(w));
    case 2:
        return word(w, (a - b) & mask(w));
    case 3:
        return word(w, (a * b) & mask(w));
    case 8:
        return word(w, a & b);
    case 9:
        return word(w, a | b);
    case 10:
        return word(w, a ^ b);
    case 11:
        return word(w, b < w ? (a << b) & mask(w) : 0);
    case 12:
        return word(w, b < w ? a >> b : 0);
    case 13:
        return word(w, (uint64_t)(as_signed(w, a) >> (b < w ? b : w - 1)) & mask(w));
    case 14:
        return word(1, a == b);
    case 15:
        return word(1, a != b);
    case 16:
        return word(1, a < b);
    case 17:
        return word(1, a <= b);
    case 18:
        return word(1, as_signed(w, a) < as_signed(w, b));
    case 19:
        return word(1, as_signed(w, a) <= as_signed(w, b));
    default:
        return divide(sub, w, a, b);
    }
}

static struct value unary(uint32_t sub, struct value x)
{
    if (x.kind != A_WORD)
        return unknown;
    return word(x.width, (sub == 1 ? 0 - x.number : ~x.number) & mask(x.width));
}

static struct value cast(uint32_t sub, uint32_t p, struct value x)
{
    if (x.kind != A_WORD)
        return unknown;
    switch (sub) {
    case 1:
        return word(p, x.number & mask(p));
    case 2:
        return word(p, x.number >> (x.width - p));
    case 3:
        return word(p, (uint64_t)as_signed(x.width, x.number) & mask(p));
    default:
        return word(p, x.number);
    }
}

static struct value extract(uint32_t p, uint32_t q, struct value x)
{
    if (x.kind != A_WORD)
        return unknown;
    return word(p - q + 1, q < 64 ? (x.number >> q) & mask(p - q + 1) : 0);
}

static struct value concat(struct value x, struct value y)
{
    if (x.kind != A_WORD || y.kind != A_WORD)
        return unknown;
    return word(x.width + y.width, x.number << y.width | y.number);
}

/* The log. */

/* The byte at an address of the chain from an entry: its first with that address, else unknown. */
static uint64_t byte_at(const struct machine *m, uint64_t head, uint64_t address)
{
    while (head != 0) {
        const struct entry *e = &m->log[head - 1];
        if (e->address == address)
            return e->byte;
        head = e->previous;
    }
    return UNKNOWN_BYTE;
}

static struct value load(const struct machine *m, const struct expression *e, struct value from, struct value address)
{
    if (from.kind != A_MEMORY || address.kind != A_WORD)
        return unknown;
    uint64_t all = mask(from.width), v = 0;
    for (uint32_t shift = 0; shift < e->p; shift += 8) {
        uint64_t byte = byte_at(m, from.number, (address.number + shift / 8) & all);
        if (byte == UNKNOWN_BYTE)
            return unknown;
        v = e->q == 1 ? v << 8 | byte : v | byte << shift;
    }
    return word(e->p, v);
}

static struct value store(struct machine *m, const struct expression *e, struct value to, struct value address,
                          struct value x)
{
    if (address.kind != A_WORD)
        return unknown;
    uint64_t all = mask(address.width);
    uint64_t head = to.kind == A_MEMORY ? to.number : 0;
    for (uint32_t shift = 0; shift < e->p; shift += 8) {
        if (m->count == m->room) {
            m->code = LOG_FULL;
            return stopped;
        }
        struct entry *n = &m->log[m->count++];
        n->previous = head;
        n->width = address.width;
        n->address = (address.number + shift / 8) & all;
        n->byte = x.kind == A_WORD ? x.number >> (e->q == 1 ? e->p - 8 - shift : shift) & 255 : UNKNOWN_BYTE;
        head = m->count;
    }
    return memory(address.width, head);
}

/* Evaluation. */

static void bind(struct bindings *b, uint32_t variable, struct value x)
{
    b->variables[b->count] = variable;
    b->kinds[b->count] = x.kind;
    b->widths[b->count] = x.width;
    b->numbers[b->count] = x.number;
    b->count++;
}

/* The value of a let variable, which the table's check knows to be bound. */
static struct value bound(const struct bindings *b, uint32_t variable)
{
    size_t i = b->count - 1;
    while (b->variables[i] != variable)
        i--;
    struct value x = {b->kinds[i], b->widths[i], b->numbers[i]};
    return x;
}

static struct value read_variable(const struct machine *m, const struct bindings *b, uint32_t i)
{
    struct variable v = variable(m, i);
    if (v.role == 1)
        return bound(b, i);
    uint64_t number = m->state[2 * i + 1];
    switch (m->state[2 * i]) {
    case A_WORD:
        return word(v.width, number);
    case A_MEMORY:
        return memory(v.address_width, number);
    default:
        return unknown;
    }
}

static struct value eval(struct machine *m, passed_bindings b, uint32_t i);

/* The operands are evaluated in paper 01's order, all of them before anything is decided. */

static struct value eval_load(struct machine *m, struct bindings *b, const struct expression *e)
{
    struct value address = eval(m, HANDED(b), e->b);
    if (address.kind == STOPPED)
        return stopped;
    struct value from = eval(m, HANDED(b), e->a);
    if (from.kind == STOPPED)
        return stopped;
    return load(m, e, from, address);
}

static struct value eval_store(struct machine *m, struct bindings *b, const struct expression *e)
{
    struct value x = eval(m, HANDED(b), e->c);
    if (x.kind == STOPPED)
        return stopped;
    struct value address = eval(m, HANDED(b), e->b);
    if (address.kind == STOPPED)
        return stopped;
    struct value to = eval(m, HANDED(b), e->a);
    if (to.kind == STOPPED)
        return stopped;
    return store(m, e, to, address, x);
}

static struct value eval_ite(struct machine *m, struct bindings *b, const struct expression *e)
{
    struct value other = eval(m, HANDED(b), e->c);
    if (other.kind == STOPPED)
        return stopped;
    struct value then = eval(m, HANDED(b), e->b);
    if (then.kind == STOPPED)
        return stopped;
    struct value condition = eval(m, HANDED(b), e->a);
    if (condition.kind != A_WORD)
        return condition; /* stopped or unknown */
    return condition.number == 1 ? then : other;
}

static struct value eval_let(struct machine *m, struct bindings *b, const struct expression *e)
{
    struct value x = eval(m, HANDED(b), e->b);
    if (x.kind == STOPPED)
        return stopped;
    if (b->count == MOST_BINDINGS) {
        m->code = TOO_MANY_BINDINGS;
        return stopped;
    }
    bind(b, e->a, x);
    struct value y = eval(m, HANDED(b), e->c);
    b->count--;
    return y;
}

static struct value eval_two(struct machine *m, struct bindings *b, const struct expression *e)
{
    struct value x = eval(m, HANDED(b), e->a);
    if (x.kind == STOPPED)
        return stopped;
    struct value y = eval(m, HANDED(b), e->b);
    if (y.kind == STOPPED)
        return stopped;
    return e->op == BINARY ? binary(e->sub, x, y) : concat(x, y);
}

static struct value eval_one(struct machine *m, struct bindings *b, const struct expression *e)
{
    struct value x = eval(m, HANDED(b), e->a);
    if (x.kind == STOPPED)
        return stopped;
    if (e->op == UNARY)
        return unary(e->sub, x);
    return e->op == CAST ? cast(e->sub, e->p, x) : extract(e->p, e->q, x);
}

static struct value eval(struct machine *m, passed_bindings b, uint32_t i)
{
    struct expression e = expression(m, i);
    struct bindings *own = OWN(b);
    switch (e.op) {
    case VAR:
        return read_variable(m, own, e.a);
    case WORD:
        return word(e.p, (uint64_t)e.c << 32 | e.b);
    case UNKNOWN:
        return unknown;
    case LOAD:
        return eval_load(m, own, &e);
    case STORE:
        return eval_store(m, own, &e);
    case LET:
        return eval_let(m, own, &e);
    case ITE:
        return eval_ite(m, own, &e);
    case BINARY:
    case CONCAT:
        return eval_two(m, own, &e);
    default:
        return eval_one(m, own, &e);
    }
}

/* The value of a statement's expression. */
static struct value evaluate(struct machine *m, uint32_t i)
{
    struct bindings b;
    b.count = 0;
    return eval(m, HANDED(&b), i);
}

/* Running: each function says whether the run goes on. */

static bool stop(struct machine *m, uint32_t code, uint32_t i)
{
    m->code = code;
    m->place = i;
    return false;
}

static bool begin(struct machine *m, uint32_t i)
{
    if (m->ticks == 0)
        return stop(m, NO_TICK, i);
    m->ticks--;
    return true;
}

static bool run_move(struct machine *m, const struct statement *s, uint32_t i)
{
    struct value x = evaluate(m, s->b);
    if (x.kind == STOPPED)
        return stop(m, m->code, i);
    m->state[2 * s->a] = x.kind;
    m->state[2 * s->a + 1] = x.number;
    return true;
}

static bool run_jump(struct machine *m, const struct statement *s, uint32_t i)
{
    struct value x = evaluate(m, s->a);
    if (x.kind != A_WORD)
        return stop(m, x.kind == STOPPED ? m->code : JUMP_UNKNOWN, i);
    m->next = x.number;
    return true;
}

/* The test of a guard; `holds` takes what it says. */
static bool test(struct machine *m, uint32_t guard, uint32_t i, bool *holds)
{
    struct value x = evaluate(m, guard);
    if (x.kind != A_WORD)
        return stop(m, x.kind == STOPPED ? m->code : GUARD_UNKNOWN, i);
    *holds = x.number == 1;
    return true;
}

static bool run_block(struct machine *m, uint32_t i, uint32_t end);

/* A while whose first tick is paid. */
static bool run_while(struct machine *m, const struct statement *s, uint32_t i)
{
    bool holds;
    for (;;) {
        if (!test(m, s->a, i, &holds))
            return false;
        if (!holds)
            return true;
        if (!run_block(m, i + 1, i + 1 + s->b) || !begin(m, i))
            return false;
    }
}

static bool run_if(struct machine *m, const struct statement *s, uint32_t i)
{
    bool holds;
    uint32_t other = i + 1 + s->b;
    if (!test(m, s->a, i, &holds))
        return false;
    return holds ? run_block(m, i + 1, other) : run_block(m, other, other + s->c);
}

static bool run_block(struct machine *m, uint32_t i, uint32_t end)
{
    bool on = true;
    while (on && i < end) {
        struct statement s = statement(m, i);
        uint32_t bodies = 0;
        if (!begin(m, i))
            return false;
        switch (s.op) {
        case MOVE:
            on = run_move(m, &s, i);
            break;
        case JMP:
            on = run_jump(m, &s, i);
            break;
        case WHILE:
            on = run_while(m, &s, i);
            bodies = s.b;
            break;
        case IF:
            on = run_if(m, &s, i);
            bodies = s.b + s.c;
            break;
        }
        i += 1 + bodies;
    }
    return on;
}

/* The start. */

static struct verdict refused(uint32_t code, uint32_t place)
{
    struct verdict v = {code, place};
    return v;
}

static bool fits(uint64_t width, uint64_t x)
{
    return x <= mask((uint32_t)width);
}

/* 17 */
static bool entry_holds(const struct entry *log, uint64_t n)
{
    const struct entry *e = &log[n - 1];
    if (e->width - 1 >= 64 || !fits(e->width, e->address) || e->byte > UNKNOWN_BYTE || e->previous >= n)
        return false;
    return e->previous == 0 || log[e->previous - 1].width == e->width;
}

/* 18 */
static bool pair_holds(const struct machine *m, uint32_t i)
{
    struct variable v = variable(m, i);
    uint64_t kind = m->state[2 * i], n = m->state[2 * i + 1];
    if (kind == 0)
        return n == 0;
    if (v.role == 1)
        return false;
    switch (kind) {
    case A_WORD:
        return v.kind == 1 && fits(v.width, n);
    case AN_UNKNOWN:
        return n == 0;
    case A_MEMORY:
        return v.kind == 2 && n - 1 < m->count && m->log[n - 1].width == v.address_width;
    default:
        return false;
    }
}

/* 16 to 18 */
static struct verdict check_start(const struct machine *m, const struct header *h, size_t state_len, size_t log_len)
{
    if (state_len != 2 * (size_t)h->variables)
        return refused(16, 0);
    if (log_len % 4 != 0 || m->room > MOST_ENTRIES)
        return refused(16, 1);
    if (m->count > m->room)
        return refused(16, 2);
    if (!fits(h->width, m->next))
        return refused(16, 3);
    for (uint64_t n = 1; n <= m->count; n++)
        if (!entry_holds(m->log, n))
            return refused(17, (uint32_t)n);
    for (uint32_t i = 0; i < h->variables; i++)
        if (!pair_holds(m, i))
            return refused(18, i);
    return refused(0, 0);
}

/* The run of a machine whose buffers are set; ticks that are taken come off the budget. */
static struct verdict run(struct machine *m, const uint8_t *table, size_t table_len, size_t state_len, size_t log_len)
{
    struct verdict v = peer_check(table, table_len);
    if (v.code != 0)
        return v;
    struct header h;
    memcpy(&h, table, sizeof h);
    m->variables = table + h.variables_at;
    m->expressions = table + h.expressions_at;
    m->statements = table + h.statements_at;
    v = check_start(m, &h, state_len, log_len);
    if (v.code != 0)
        return v;
    if (!run_block(m, 0, h.statements))
        v = refused(m->code, m->place);
    return v;
}

uint32_t peer_run(const uint8_t *table, size_t table_len, uint64_t *state, size_t state_len, uint64_t *log,
                  size_t log_len, uint64_t count, uint64_t next, uint32_t budget, uint64_t *out, size_t out_len)
{
    if (out_len != 5)
        return 0;
    struct machine m = {
        .state = state, .log = (struct entry *)log, .count = count, .room = log_len / 4, .next = next, .ticks = budget};
    struct verdict v = run(&m, table, table_len, state_len, log_len);
    out[0] = v.code;
    out[1] = v.place;
    out[2] = budget - m.ticks;
    out[3] = m.count;
    out[4] = m.next;
    return 1;
}
