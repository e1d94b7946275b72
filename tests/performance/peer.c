/*
 * A plain C checker of tables: refusals 1 to 15, written for speed and not proved. Every array is on the stack, every
 * group of rules is one pass over its records, and what later rules need of a record is kept when it is first read.
 */
#include "peer.h"
#include "records.h"

#include <string.h>

enum { VARIABLES = 256, EXPRESSIONS = 2048, STATEMENTS = 1024, DEPTH = 64, NESTING = 32 };

/* A type in a byte: an immediate is its width, 1 to 64, and a memory 64 more than its address width, 65 to 128. */
enum { MEMORY = 64, NO_TYPE = 255 };

/* What is known of a table. */
struct reading {
    struct header header;
    const uint8_t *variables, *expressions, *statements;
    uint8_t variable_type[VARIABLES];
    bool variable_let[VARIABLES];
    bool variable_sealed[VARIABLES];
    bool lets; /* some variable is a let variable */
    uint8_t uses[EXPRESSIONS];
    uint8_t type[EXPRESSIONS];
    bool sealed[EXPRESSIONS];
    int16_t inside[EXPRESSIONS]; /* the nearest let whose body holds the expression, or -1 */
    uint32_t too_deep;   /* the first expression over DEPTH, or EXPRESSIONS */
    uint32_t too_nested; /* the first statement over NESTING, or STATEMENTS */
};

static const struct verdict accepted = {0, 0};

static struct verdict refused(uint32_t code, uint32_t place)
{
    struct verdict v = {code, place};
    return v;
}

static struct expression expression(const struct reading *r, uint32_t i)
{
    struct expression e;
    memcpy(&e, r->expressions + 16 * (size_t)i, sizeof e);
    return e;
}

static struct statement statement(const struct reading *r, uint32_t i)
{
    struct statement s;
    memcpy(&s, r->statements + 16 * (size_t)i, sizeof s);
    return s;
}

static bool is_width(uint32_t x)
{
    return x - 1 < 64;
}

static bool is_size(uint32_t x)
{
    return is_width(x) && x % 8 == 0;
}

/* 1 to 4 */
static struct verdict read_header(struct reading *r, const uint8_t *table, size_t length)
{
    struct header *h = &r->header;
    if (length < sizeof *h)
        return refused(1, 0);
    memcpy(h, table, sizeof *h);
    if (h->format != 1 || !is_width(h->width))
        return refused(2, 0);
    if (h->variables > VARIABLES || h->expressions > EXPRESSIONS || h->statements - 1 >= STATEMENTS)
        return refused(3, 0);
    uint32_t expressions_at = 32 + 8 * h->variables;
    uint32_t statements_at = expressions_at + 16 * h->expressions;
    uint32_t total = statements_at + 16 * h->statements;
    if (h->variables_at != 32 || h->expressions_at != expressions_at || h->statements_at != statements_at ||
        h->total != total || length != total)
        return refused(4, 0);
    r->variables = table + 32;
    r->expressions = table + expressions_at;
    r->statements = table + statements_at;
    return accepted;
}

/* 5 */
static struct verdict read_variables(struct reading *r)
{
    r->lets = false;
    for (uint32_t i = 0; i < r->header.variables; i++) {
        struct variable v;
        memcpy(&v, r->variables + 8 * (size_t)i, sizeof v);
        bool immediate = v.kind == 1 && is_width(v.width) && v.address_width == 0;
        bool memory = v.kind == 2 && v.width == 8 && is_width(v.address_width);
        if (!(immediate || memory) || v.label > 1 || v.role > 1 || (v.zeros[0] | v.zeros[1] | v.zeros[2]) != 0)
            return refused(5, i);
        r->variable_type[i] = immediate ? v.width : MEMORY + v.address_width;
        r->variable_let[i] = v.role == 1;
        r->variable_sealed[i] = v.label == 1;
        r->lets |= v.role == 1;
    }
    return accepted;
}

/* The fields of an expression's op, apart from its operands: that they are earlier is asked where they are counted. */
static bool fields_hold(const struct reading *r, const struct expression *e)
{
    switch (e->op) {
    case VAR:
        return e->a < r->header.variables && (e->sub | e->p | e->q) == 0 && (e->b | e->c) == 0;
    case WORD:
        return is_width(e->p) && (((uint64_t)e->c << 32 | e->b) >> (e->p - 1)) <= 1 && (e->sub | e->q) == 0 &&
               e->a == 0;
    case LOAD:
        return is_size(e->p) && e->q <= 1 && e->sub == 0 && e->c == 0;
    case STORE:
        return is_size(e->p) && e->q <= 1 && e->sub == 0;
    case BINARY:
        return e->sub - 1u < 19 && (e->p | e->q) == 0 && e->c == 0;
    case UNARY:
        return e->sub - 1u < 2 && (e->p | e->q) == 0 && (e->b | e->c) == 0;
    case CAST:
        return e->sub - 1u < 4 && is_width(e->p) && e->q == 0 && (e->b | e->c) == 0;
    case LET:
        return e->a < r->header.variables && r->variable_let[e->a] && (e->sub | e->p | e->q) == 0;
    case UNKNOWN:
        return (e->q == 0 ? is_width(e->p) : is_width(e->q) && e->p == 8) && e->sub == 0 && (e->a | e->b | e->c) == 0;
    case ITE:
        return (e->sub | e->p | e->q) == 0;
    case EXTRACT:
        return e->q <= e->p && e->p - e->q <= 63 && e->sub == 0 && (e->b | e->c) == 0;
    case CONCAT:
        return (e->sub | e->p | e->q) == 0 && e->c == 0;
    default:
        return false;
    }
}

/* Which of a, b and c are operands, by op. */
enum { A = 1, B = 2, C = 4 };
static const uint8_t operands[] = {
    [LOAD] = A | B, [STORE] = A | B | C, [BINARY] = A | B, [UNARY] = A, [CAST] = A,
    [LET] = B | C, [ITE] = A | B | C, [EXTRACT] = A, [CONCAT] = A | B,
};

/* A use more: two stands for any number over one. */
static void use(struct reading *r, uint32_t i)
{
    r->uses[i] += r->uses[i] < 2;
}

/* Counts the use of an operand and gives the greater depth, its own or the deepest so far. */
static uint16_t use_operand(struct reading *r, const uint16_t *depth, uint32_t operand, uint16_t deepest)
{
    use(r, operand);
    return depth[operand] > deepest ? depth[operand] : deepest;
}

/* 6; counts uses and finds the first expression that is too deep */
static struct verdict read_expressions(struct reading *r)
{
    uint16_t depth[EXPRESSIONS];
    r->too_deep = EXPRESSIONS;
    memset(r->uses, 0, r->header.expressions);
    for (uint32_t i = 0; i < r->header.expressions; i++) {
        struct expression e = expression(r, i);
        if (!fields_hold(r, &e))
            return refused(6, i);
        uint8_t has = operands[e.op];
        if ((has & A && e.a >= i) || (has & B && e.b >= i) || (has & C && e.c >= i))
            return refused(6, i);
        uint16_t deepest = 0;
        if (has & A)
            deepest = use_operand(r, depth, e.a, deepest);
        if (has & B)
            deepest = use_operand(r, depth, e.b, deepest);
        if (has & C)
            deepest = use_operand(r, depth, e.c, deepest);
        depth[i] = deepest + 1;
        if (depth[i] > DEPTH && r->too_deep == EXPRESSIONS)
            r->too_deep = i;
    }
    return accepted;
}

/* The fields of a statement's op; its use of an expression is counted. */
static bool statement_holds(struct reading *r, const struct statement *s)
{
    uint32_t e = r->header.expressions;
    if ((s->zeros[0] | s->zeros[1] | s->zeros[2]) != 0)
        return false;
    switch (s->op) {
    case MOVE:
        if (s->a >= r->header.variables || r->variable_let[s->a] || s->b >= e || s->c != 0)
            return false;
        use(r, s->b);
        return true;
    case JMP:
        if (s->a >= e || (s->b | s->c) != 0)
            return false;
        use(r, s->a);
        return true;
    case CPUEXN:
    case SPECIAL:
        return (s->b | s->c) == 0;
    case WHILE:
    case IF:
        if (s->a >= e || s->b == 0 || (s->op == WHILE && s->c != 0))
            return false;
        use(r, s->a);
        return true;
    default:
        return false;
    }
}

/* 7; counts uses and finds the first statement that is nested too deep. The open blocks stand by their ends, the
   innermost last; `after` is where the else block ends that follows a then block, or the block's own end. */
static struct verdict read_statements(struct reading *r)
{
    uint32_t end[STATEMENTS];
    uint32_t after[STATEMENTS];
    uint32_t open = 0;
    end[0] = after[0] = r->header.statements;
    r->too_nested = STATEMENTS;
    for (uint32_t i = 0; i < r->header.statements; i++) {
        while (end[open] == i) {
            if (after[open] > i)
                end[open] = after[open];
            else
                open--;
        }
        if (open >= NESTING && r->too_nested == STATEMENTS)
            r->too_nested = i;
        struct statement s = statement(r, i);
        if (!statement_holds(r, &s))
            return refused(7, i);
        if (s.op != WHILE && s.op != IF)
            continue;
        uint32_t room = end[open] - i - 1;
        if (s.b > room || s.c > room - s.b)
            return refused(7, i);
        open++;
        end[open] = i + 1 + s.b;
        after[open] = end[open] + s.c;
    }
    return accepted;
}

/* 8 to 10 */
static struct verdict check_shape(const struct reading *r)
{
    for (uint32_t i = 0; i < r->header.expressions; i++)
        if (r->uses[i] != 1)
            return refused(8, i);
    if (r->too_deep < EXPRESSIONS)
        return refused(9, r->too_deep);
    if (r->too_nested < STATEMENTS)
        return refused(10, r->too_nested);
    return accepted;
}

/* For each expression the nearest let whose body holds it, or -1. A user stands behind what it uses, so the last
   expression comes first; what a statement uses is in no body. */
static void find_bodies(struct reading *r)
{
    for (uint32_t i = 0; i < r->header.statements; i++) {
        struct statement s = statement(r, i);
        if (s.op == MOVE)
            r->inside[s.b] = -1;
        else if (s.op != CPUEXN && s.op != SPECIAL)
            r->inside[s.a] = -1;
    }
    for (uint32_t i = r->header.expressions; i-- > 0;) {
        struct expression e = expression(r, i);
        uint8_t has = operands[e.op];
        if (has & A)
            r->inside[e.a] = r->inside[i];
        if (has & B)
            r->inside[e.b] = r->inside[i];
        if (has & C)
            r->inside[e.c] = e.op == LET ? (int16_t)i : r->inside[i];
    }
}

/* 11 */
static struct verdict check_scope(struct reading *r)
{
    if (!r->lets)
        return accepted;
    find_bodies(r);
    for (uint32_t i = 0; i < r->header.expressions; i++) {
        struct expression e = expression(r, i);
        if (e.op != LET && !(e.op == VAR && r->variable_let[e.a]))
            continue;
        int16_t let = r->inside[i];
        while (let >= 0 && expression(r, (uint32_t)let).a != e.a)
            let = r->inside[let];
        if ((let >= 0) != (e.op == VAR))
            return refused(11, i);
    }
    return accepted;
}

/* The type of an expression whose operands have theirs, or NO_TYPE. */
static uint8_t type_of(const struct reading *r, const struct expression *e)
{
    const uint8_t *type = r->type;
    switch (e->op) {
    case VAR:
        return r->variable_type[e->a];
    case WORD:
        return e->p;
    case LOAD:
        return type[e->a] > MEMORY && type[e->b] == type[e->a] - MEMORY ? e->p : NO_TYPE;
    case STORE:
        return type[e->a] > MEMORY && type[e->b] == type[e->a] - MEMORY && type[e->c] == e->p ? type[e->a] : NO_TYPE;
    case BINARY:
        if (type[e->a] > MEMORY || type[e->a] != type[e->b])
            return NO_TYPE;
        return e->sub >= 14 ? 1 : type[e->a];
    case UNARY:
        return type[e->a] > MEMORY ? NO_TYPE : type[e->a];
    case CAST:
        if (type[e->a] > MEMORY || (e->sub <= 2 ? e->p > type[e->a] : e->p < type[e->a]))
            return NO_TYPE;
        return e->p;
    case LET:
        return type[e->b] == r->variable_type[e->a] ? type[e->c] : NO_TYPE;
    case UNKNOWN:
        return e->q == 0 ? e->p : MEMORY + e->q;
    case ITE:
        return type[e->a] == 1 && type[e->b] == type[e->c] ? type[e->b] : NO_TYPE;
    case EXTRACT:
        return type[e->a] > MEMORY ? NO_TYPE : e->p - e->q + 1;
    default: /* CONCAT: a memory's number is over 64 already */
        return type[e->a] + type[e->b] > 64 ? NO_TYPE : type[e->a] + type[e->b];
    }
}

/* 12 and 13 */
static struct verdict check_types(struct reading *r)
{
    for (uint32_t i = 0; i < r->header.expressions; i++) {
        struct expression e = expression(r, i);
        r->type[i] = type_of(r, &e);
        if (r->type[i] == NO_TYPE)
            return refused(12, i);
    }
    for (uint32_t i = 0; i < r->header.statements; i++) {
        struct statement s = statement(r, i);
        bool typed = true;
        if (s.op == MOVE)
            typed = r->type[s.b] == r->variable_type[s.a];
        else if (s.op == JMP)
            typed = r->type[s.a] == r->header.width;
        else if (s.op == WHILE || s.op == IF)
            typed = r->type[s.a] == 1;
        if (!typed)
            return refused(13, i);
    }
    return accepted;
}

/* Whether an expression is sealed, its operands' labels known. */
static bool label_of(const struct reading *r, const struct expression *e)
{
    if (e->op == VAR)
        return r->variable_sealed[e->a];
    if (e->op == LET)
        return r->sealed[e->c];
    uint8_t has = operands[e->op];
    return (has & A && r->sealed[e->a]) || (has & B && r->sealed[e->b]) || (has & C && r->sealed[e->c]);
}

/* 14 and 15 */
static struct verdict check_seals(struct reading *r)
{
    for (uint32_t i = 0; i < r->header.expressions; i++) {
        struct expression e = expression(r, i);
        if ((e.op == LOAD || e.op == STORE) && r->sealed[e.b])
            return refused(14, i);
        if (e.op == LET && r->sealed[e.b] && !r->variable_sealed[e.a])
            return refused(14, i);
        r->sealed[i] = label_of(r, &e);
    }
    for (uint32_t i = 0; i < r->header.statements; i++) {
        struct statement s = statement(r, i);
        if (s.op == MOVE ? r->sealed[s.b] && !r->variable_sealed[s.a]
                         : s.op != CPUEXN && s.op != SPECIAL && r->sealed[s.a])
            return refused(15, i);
    }
    return accepted;
}

/* 1 to 13; the reading is whole where it is accepted */
static struct verdict check(struct reading *r, const uint8_t *table, size_t length)
{
    struct verdict v = read_header(r, table, length);
    if (v.code == 0)
        v = read_variables(r);
    if (v.code == 0)
        v = read_expressions(r);
    if (v.code == 0)
        v = read_statements(r);
    if (v.code == 0)
        v = check_shape(r);
    if (v.code == 0)
        v = check_scope(r);
    if (v.code == 0)
        v = check_types(r);
    return v;
}

struct verdict peer_check(const uint8_t *table, size_t length)
{
    struct reading r;
    return check(&r, table, length);
}

struct verdict peer_seal(const uint8_t *table, size_t length)
{
    struct reading r;
    struct verdict v = check(&r, table, length);
    return v.code == 0 ? check_seals(&r) : v;
}
