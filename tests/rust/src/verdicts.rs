//! The verdicts of a table, refusals 1 to 15, from the scope's words: what is read is a list of records, every rule is
//! a function of its own that says whether a place keeps it, and the answer is the first rule that is broken, at the
//! first place.

pub const VARIABLES: u32 = 256;
pub const EXPRESSIONS: u32 = 2_048;
pub const STATEMENTS: u32 = 1_024;
pub const DEPTH: u32 = 64;
pub const NESTING: u32 = 32;

#[derive(Clone, Copy, Debug, Default, PartialEq, Eq)]
pub struct Variable {
    pub kind: u8,
    pub label: u8,
    pub width: u8,
    pub address_width: u8,
    pub role: u8,
    pub zeros: [u8; 3],
}

#[derive(Clone, Copy, Debug, Default, PartialEq, Eq)]
pub struct Expression {
    pub op: u8,
    pub sub: u8,
    pub p: u8,
    pub q: u8,
    pub a: u32,
    pub b: u32,
    pub c: u32,
}

#[derive(Clone, Copy, Debug, Default, PartialEq, Eq)]
pub struct Statement {
    pub op: u8,
    pub zeros: [u8; 3],
    pub a: u32,
    pub b: u32,
    pub c: u32,
}

#[derive(Clone, Debug, PartialEq, Eq)]
pub struct Table {
    pub format: u16,
    pub address_width: u16,
    pub variables: Vec<Variable>,
    pub expressions: Vec<Expression>,
    pub statements: Vec<Statement>,
}

#[derive(Clone, Copy, Debug, PartialEq, Eq)]
pub enum Type {
    Immediate(u32),
    /// A memory, by the width of its addresses: its elements have 8 bits always.
    Memory(u32),
}

/// A code and a place, 0 and 0 for a table that is accepted and, from the seal check, clean.
pub type Verdict = (u32, u32);

/// Refusals 1 to 13.
pub fn check(bytes: &[u8]) -> Verdict {
    accepted(bytes).err().unwrap_or((0, 0))
}

/// The table that the bytes hold, or the first of refusals 1 to 13.
pub fn accepted(bytes: &[u8]) -> Result<Table, Verdict> {
    read(bytes).and_then(|table| typed(&table).map(|()| table))
}

/// Refusals 1 to 15.
pub fn seal(bytes: &[u8]) -> Verdict {
    read(bytes).and_then(|table| typed(&table).and_then(|()| clean(&table))).err().unwrap_or((0, 0))
}

/// Refusals 1 to 4, and the records that the bytes hold.
fn read(bytes: &[u8]) -> Result<Table, Verdict> {
    if bytes.len() < 32 {
        return Err((1, 0));
    }
    let (format, address_width) = (two(bytes, 0), two(bytes, 2));
    if format != 1 || !(1..=64).contains(&address_width) {
        return Err((2, 0));
    }
    let header: Vec<u32> = (0..7).map(|i| four(bytes, 4 + 4 * i)).collect();
    let (v, e, s) = (header[0], header[2], header[4]);
    if v > VARIABLES || e > EXPRESSIONS || !(1..=STATEMENTS).contains(&s) {
        return Err((3, 0));
    }
    let starts = [32, 32 + 8 * v, 32 + 8 * v + 16 * e, 32 + 8 * v + 16 * e + 16 * s];
    if [header[1], header[3], header[5], header[6]] != starts || bytes.len() != starts[3] as usize {
        return Err((4, 0));
    }
    let records = |i: usize, size| bytes[starts[i] as usize..starts[i + 1] as usize].chunks(size);
    Ok(Table {
        format,
        address_width,
        variables: records(0, 8).map(Variable::read).collect(),
        expressions: records(1, 16).map(Expression::read).collect(),
        statements: records(2, 16).map(Statement::read).collect(),
    })
}

fn two(bytes: &[u8], at: usize) -> u16 {
    u16::from_le_bytes([bytes[at], bytes[at + 1]])
}

fn four(bytes: &[u8], at: usize) -> u32 {
    u32::from(two(bytes, at)) + 65_536 * u32::from(two(bytes, at + 2))
}

/// The first place of a rule that fails there, as a refusal.
fn first(code: u32, places: usize, holds: impl Fn(usize) -> bool) -> Result<(), Verdict> {
    match (0..places).find(|&place| !holds(place)) {
        Some(place) => Err((code, place as u32)),
        None => Ok(()),
    }
}

/// Refusals 5 to 13.
fn typed(t: &Table) -> Result<(), Verdict> {
    let (v, e, s) = (t.variables.len(), t.expressions.len(), t.statements.len());
    first(5, v, |i| t.variables[i].holds())?;
    first(6, e, |i| t.expressions[i].holds(i as u32, t))?;
    let blocks = blocks(t)?;

    let uses = uses(t);
    first(8, e, |i| uses[i] == 1)?;
    let depths = depths(t);
    first(9, e, |i| depths[i] <= DEPTH)?;
    first(10, s, |i| blocks[i].nesting <= NESTING)?;
    let users = users(t);
    first(11, e, |i| in_scope(t, &users, i))?;

    let types = types(t);
    first(12, e, |i| types[i].is_some())?;
    first(13, s, |i| statement_typed(t, &types, &t.statements[i]))
}

/// Refusals 14 and 15 of a table that is accepted.
fn clean(t: &Table) -> Result<(), Verdict> {
    let sealed = labels(t);
    first(14, t.expressions.len(), |i| expression_clean(t, &sealed, &t.expressions[i]))?;
    first(15, t.statements.len(), |i| statement_clean(t, &sealed, &t.statements[i]))
}

impl Variable {
    fn read(r: &[u8]) -> Variable {
        Variable { kind: r[0], label: r[1], width: r[2], address_width: r[3], role: r[4], zeros: [r[5], r[6], r[7]] }
    }

    fn holds(&self) -> bool {
        let widths = match self.kind {
            1 => (1..=64).contains(&self.width) && self.address_width == 0,
            2 => self.width == 8 && (1..=64).contains(&self.address_width),
            _ => false,
        };
        widths && self.label <= 1 && self.role <= 1 && self.zeros == [0, 0, 0]
    }

    pub fn is_let(&self) -> bool {
        self.role == 1
    }

    pub fn is_sealed(&self) -> bool {
        self.label == 1
    }

    pub fn of_type(&self) -> Type {
        if self.kind == 1 {
            Type::Immediate(self.width.into())
        } else {
            Type::Memory(self.address_width.into())
        }
    }
}

impl Expression {
    fn read(r: &[u8]) -> Expression {
        Expression { op: r[0], sub: r[1], p: r[2], q: r[3], a: four(r, 4), b: four(r, 8), c: four(r, 12) }
    }

    /// Whether the record has the fields of its op and zeros elsewhere. `own` is its number.
    fn holds(&self, own: u32, t: &Table) -> bool {
        let Expression { op, sub, p, q, a, b, c } = *self;
        let width = |x: u8| (1..=64).contains(&x);
        let size = |x: u8| [8, 16, 24, 32, 40, 48, 56, 64].contains(&x);
        let earlier = |x: u32| x < own;
        match op {
            1 => (a as usize) < t.variables.len() && (sub, p, q, b, c) == (0, 0, 0, 0, 0),
            2 => {
                let value = u128::from(b) + (u128::from(c) << 32);
                width(p) && value < 1 << p && (sub, q, a) == (0, 0, 0)
            }
            3 => size(p) && q <= 1 && earlier(a) && earlier(b) && (sub, c) == (0, 0),
            4 => size(p) && q <= 1 && earlier(a) && earlier(b) && earlier(c) && sub == 0,
            5 => (1..=19).contains(&sub) && earlier(a) && earlier(b) && (p, q, c) == (0, 0, 0),
            6 => (1..=2).contains(&sub) && earlier(a) && (p, q, b, c) == (0, 0, 0, 0),
            7 => (1..=4).contains(&sub) && width(p) && earlier(a) && (q, b, c) == (0, 0, 0),
            8 => {
                let variable = t.variables.get(a as usize);
                variable.map_or(false, Variable::is_let) && earlier(b) && earlier(c) && (sub, p, q) == (0, 0, 0)
            }
            9 => (if q == 0 { width(p) } else { width(q) && p == 8 }) && (sub, a, b, c) == (0, 0, 0, 0),
            10 => earlier(a) && earlier(b) && earlier(c) && (sub, p, q) == (0, 0, 0),
            11 => q <= p && p - q <= 63 && earlier(a) && (sub, b, c) == (0, 0, 0),
            12 => earlier(a) && earlier(b) && (sub, p, q, c) == (0, 0, 0, 0),
            _ => false,
        }
    }

    /// The numbers of its operands, in field order.
    pub fn operands(&self) -> Vec<u32> {
        match self.op {
            3 | 5 | 12 => vec![self.a, self.b],
            4 | 10 => vec![self.a, self.b, self.c],
            6 | 7 | 11 => vec![self.a],
            8 => vec![self.b, self.c],
            _ => vec![],
        }
    }
}

impl Statement {
    fn read(r: &[u8]) -> Statement {
        Statement { op: r[0], zeros: [r[1], r[2], r[3]], a: four(r, 4), b: four(r, 8), c: four(r, 12) }
    }

    /// Whether the record has the fields of its op and zeros elsewhere; where its bodies end is not looked at.
    fn holds(&self, t: &Table) -> bool {
        let Statement { op, zeros, a, b, c } = *self;
        let expression = |x: u32| (x as usize) < t.expressions.len();
        zeros == [0, 0, 0]
            && match op {
                1 => t.variables.get(a as usize).map_or(false, |v| !v.is_let()) && expression(b) && c == 0,
                2 => expression(a) && (b, c) == (0, 0),
                3 | 4 => (b, c) == (0, 0),
                5 => expression(a) && b >= 1 && c == 0,
                6 => expression(a) && b >= 1,
                _ => false,
            }
    }

    /// The number of the expression that it uses.
    pub fn root(&self) -> Option<u32> {
        match self.op {
            1 => Some(self.b),
            2 | 5 | 6 => Some(self.a),
            _ => None,
        }
    }

    /// The lengths of its bodies, none of them empty.
    fn bodies(&self) -> Vec<u64> {
        let lengths = match self.op {
            5 => vec![self.b],
            6 => vec![self.b, self.c],
            _ => vec![],
        };
        lengths.into_iter().filter(|&n| n > 0).map(u64::from).collect()
    }
}

/// The block that a statement stands in.
#[derive(Clone, Copy)]
struct Block {
    end: u64,
    nesting: u32,
}

/// Refusal 7, and the block around each statement. A statement gives its bodies' statements their block, and a body
/// inside it gives them another after that, so the innermost is the one that stays.
fn blocks(t: &Table) -> Result<Vec<Block>, Verdict> {
    let count = t.statements.len();
    let mut blocks = vec![Block { end: count as u64, nesting: 1 }; count];
    for (place, statement) in t.statements.iter().enumerate() {
        let around = blocks[place];
        let bodies = statement.bodies();
        let end = place as u64 + 1 + bodies.iter().sum::<u64>();
        if !statement.holds(t) || end > around.end {
            return Err((7, place as u32));
        }
        let mut start = place as u64 + 1;
        for length in bodies {
            let body = Block { end: start + length, nesting: around.nesting + 1 };
            blocks[start as usize..body.end as usize].fill(body);
            start = body.end;
        }
    }
    Ok(blocks)
}

/// How often each expression is used.
fn uses(t: &Table) -> Vec<u32> {
    let mut uses = vec![0; t.expressions.len()];
    let operands = t.expressions.iter().flat_map(Expression::operands);
    for used in operands.chain(t.statements.iter().filter_map(Statement::root)) {
        uses[used as usize] += 1;
    }
    uses
}

fn depths(t: &Table) -> Vec<u32> {
    let mut depths: Vec<u32> = Vec::new();
    for expression in &t.expressions {
        let deepest = expression.operands().iter().map(|&o| depths[o as usize]).max();
        depths.push(1 + deepest.unwrap_or(0));
    }
    depths
}

/// The expression that uses each one, where it isn't a statement that does.
fn users(t: &Table) -> Vec<Option<usize>> {
    let mut users = vec![None; t.expressions.len()];
    for (i, expression) in t.expressions.iter().enumerate() {
        for operand in expression.operands() {
            users[operand as usize] = Some(i);
        }
    }
    users
}

/// The variables of the lets in whose bodies an expression stands.
fn bound(t: &Table, users: &[Option<usize>], expression: usize) -> Vec<u32> {
    let mut variables = Vec::new();
    let mut below = expression;
    while let Some(user) = users[below] {
        let Expression { op, a, c, .. } = t.expressions[user];
        if op == 8 && c as usize == below {
            variables.push(a);
        }
        below = user;
    }
    variables
}

/// Whether a let variable is read only in a let of it, and a let isn't in the body of another of its variable.
fn in_scope(t: &Table, users: &[Option<usize>], place: usize) -> bool {
    let Expression { op, a, .. } = t.expressions[place];
    match op {
        1 => !t.variables[a as usize].is_let() || bound(t, users, place).contains(&a),
        8 => !bound(t, users, place).contains(&a),
        _ => true,
    }
}

/// The type of each expression, none where a rule is broken at it or below it.
fn types(t: &Table) -> Vec<Option<Type>> {
    let mut types: Vec<Option<Type>> = Vec::new();
    for e in &t.expressions {
        let operands: Option<Vec<Type>> = e.operands().iter().map(|&o| types[o as usize]).collect();
        types.push(operands.and_then(|operands| type_of(t, e, &operands)));
    }
    types
}

/// T_VAR to T_CONCAT: the type of an expression whose operands have the types given, in field order.
fn type_of(t: &Table, e: &Expression, operands: &[Type]) -> Option<Type> {
    use Type::{Immediate, Memory};
    let (p, q) = (u32::from(e.p), u32::from(e.q));
    let (allowed, result) = match (e.op, operands) {
        (1, []) => (true, t.variables[e.a as usize].of_type()),
        (2, []) => (true, Immediate(p)),
        (3, [Memory(m), Immediate(address)]) => (m == address, Immediate(p)),
        (4, [Memory(m), Immediate(address), Immediate(value)]) => (m == address && *value == p, Memory(*m)),
        (5, [Immediate(l), Immediate(r)]) => (l == r, Immediate(if e.sub >= 14 { 1 } else { *l })),
        (6, [Immediate(w)]) => (true, Immediate(*w)),
        (7, [Immediate(w)]) => (if e.sub <= 2 { p <= *w } else { p >= *w }, Immediate(p)),
        (8, [bound, body]) => (*bound == t.variables[e.a as usize].of_type(), *body),
        (9, []) => (true, if q == 0 { Immediate(p) } else { Memory(q) }),
        (10, [Immediate(condition), yes, no]) => (*condition == 1 && yes == no, *yes),
        (11, [Immediate(_)]) => (true, Immediate(p - q + 1)),
        (12, [Immediate(l), Immediate(r)]) => (l + r <= 64, Immediate(l + r)),
        _ => return None,
    };
    allowed.then_some(result)
}

fn statement_typed(t: &Table, types: &[Option<Type>], statement: &Statement) -> bool {
    let wanted = match statement.op {
        1 => t.variables[statement.a as usize].of_type(),
        2 => Type::Immediate(t.address_width.into()),
        _ => Type::Immediate(1),
    };
    statement.root().map_or(true, |root| types[root as usize] == Some(wanted))
}

/// Whether each expression is sealed.
fn labels(t: &Table) -> Vec<bool> {
    let mut sealed: Vec<bool> = Vec::new();
    for e in &t.expressions {
        sealed.push(match e.op {
            1 => t.variables[e.a as usize].is_sealed(),
            8 => sealed[e.c as usize],
            _ => e.operands().iter().any(|&o| sealed[o as usize]),
        });
    }
    sealed
}

fn expression_clean(t: &Table, sealed: &[bool], e: &Expression) -> bool {
    match e.op {
        3 | 4 => !sealed[e.b as usize],
        8 => !sealed[e.b as usize] || t.variables[e.a as usize].is_sealed(),
        _ => true,
    }
}

fn statement_clean(t: &Table, sealed: &[bool], statement: &Statement) -> bool {
    match statement.op {
        1 => !sealed[statement.b as usize] || t.variables[statement.a as usize].is_sealed(),
        2 | 5 | 6 => !sealed[statement.a as usize],
        _ => true,
    }
}

impl Table {
    /// The table's bytes, with the counts, offsets and total of the records that it has.
    pub fn bytes(&self) -> Vec<u8> {
        let (v, e, s) = (self.variables.len(), self.expressions.len(), self.statements.len());
        let starts = [32, 32 + 8 * v, 32 + 8 * v + 16 * e, 32 + 8 * v + 16 * e + 16 * s];
        let mut bytes = Vec::with_capacity(starts[3]);
        bytes.extend(self.format.to_le_bytes());
        bytes.extend(self.address_width.to_le_bytes());
        for number in [v, starts[0], e, starts[1], s, starts[2], starts[3]] {
            bytes.extend((number as u32).to_le_bytes());
        }
        for v in &self.variables {
            bytes.extend([v.kind, v.label, v.width, v.address_width, v.role]);
            bytes.extend(v.zeros);
        }
        for e in &self.expressions {
            bytes.extend([e.op, e.sub, e.p, e.q]);
            bytes.extend([e.a, e.b, e.c].iter().flat_map(|x| x.to_le_bytes()));
        }
        for s in &self.statements {
            bytes.push(s.op);
            bytes.extend(s.zeros);
            bytes.extend([s.a, s.b, s.c].iter().flat_map(|x| x.to_le_bytes()));
        }
        bytes
    }
}

#[cfg(test)]
mod tests {
    use super::*;
    use crate::tables::*;

    const EXAMPLE: [u8; 72] = [
        0x01, 0x00, 0x08, 0x00, 0x01, 0x00, 0x00, 0x00, 0x20, 0x00, 0x00, 0x00, 0x01, 0x00, 0x00, 0x00, //
        0x28, 0x00, 0x00, 0x00, 0x01, 0x00, 0x00, 0x00, 0x38, 0x00, 0x00, 0x00, 0x48, 0x00, 0x00, 0x00, //
        0x01, 0x00, 0x08, 0x00, 0x00, 0x00, 0x00, 0x00, 0x02, 0x00, 0x08, 0x00, 0x00, 0x00, 0x00, 0x00, //
        0x05, 0x00, 0x00, 0x00, 0x00, 0x00, 0x00, 0x00, 0x01, 0x00, 0x00, 0x00, 0x00, 0x00, 0x00, 0x00, //
        0x00, 0x00, 0x00, 0x00, 0x00, 0x00, 0x00, 0x00,
    ];

    fn both(t: &Table) -> (Verdict, Verdict) {
        (check(&t.bytes()), seal(&t.bytes()))
    }

    /// A table over x, open of 8 bits, y, sealed of 8 bits, m, a memory of 8-bit addresses, and l, a let of 8 bits.
    fn over(expressions: Vec<Expression>, statements: Vec<Statement>) -> Table {
        let variables = vec![
            variable(Type::Immediate(8), false, false),
            variable(Type::Immediate(8), true, false),
            variable(Type::Memory(8), false, false),
            variable(Type::Immediate(8), false, true),
        ];
        table(8, variables, expressions, statements)
    }

    fn refused(code: u32, place: u32) -> (Verdict, Verdict) {
        ((code, place), (code, place))
    }

    #[test]
    fn the_scopes_example() {
        assert_eq!(example().bytes(), EXAMPLE);
        assert_eq!((check(&EXAMPLE), seal(&EXAMPLE)), ((0, 0), (0, 0)));
    }

    #[test]
    fn headers() {
        let with = |at: usize, byte: u8| {
            let mut bytes = EXAMPLE;
            bytes[at] = byte;
            check(&bytes)
        };
        assert_eq!(check(&[]), (1, 0));
        assert_eq!(check(&EXAMPLE[..31]), (1, 0));
        assert_eq!(check(&EXAMPLE[..32]), (4, 0));
        assert_eq!(
            (with(0, 2), with(1, 1), with(2, 0), with(2, 65), with(2, 64)),
            ((2, 0), (2, 0), (2, 0), (2, 0), (0, 0))
        );
        assert_eq!((with(5, 2), with(15, 1), with(20, 0), with(21, 5)), ((3, 0), (3, 0), (3, 0), (3, 0)));
        assert_eq!((with(8, 33), with(16, 41), with(24, 57), with(28, 73)), ((4, 0), (4, 0), (4, 0), (4, 0)));
        assert_eq!(check(&[0xFF; 72]), (2, 0));
        assert_eq!(check(&EXAMPLE[..71]), (4, 0));
    }

    #[test]
    fn limits() {
        for (count, i, code) in
            [(256, 0, 0), (257, 0, 3), (2_048, 1, 0), (2_049, 1, 3), (1_024, 2, 0), (1_025, 2, 3), (0, 2, 3)]
        {
            assert_eq!(both(&many(count)[i]), refused(code, 0), "{} of section {}", count, i);
        }
        assert_eq!(both(&chains(64, 32)), refused(0, 0));
        assert_eq!(both(&chains(65, 1)), refused(9, 64));
        assert_eq!(both(&chains(2_048, 1)), refused(9, 64));
        assert_eq!(both(&lets(64, 16)), refused(0, 0));
        for (op, by_else) in [(5, false), (6, false), (6, true)] {
            let far = if by_else { 63 } else { 32 };
            assert_eq!(both(&nested(op, by_else, 32)), refused(0, 0));
            assert_eq!(both(&nested(op, by_else, 33)), refused(10, far));
            assert_eq!(both(&nested(op, by_else, 512)), refused(10, far));
        }
        assert_eq!(both(&nested(6, false, 1_024)), refused(10, 32));
    }

    #[test]
    fn records() {
        let moved = |e: Expression| over(vec![word(8, 1), e], vec![statement(1, 0, 1, 0)]);
        assert_eq!(both(&moved(word(8, 256))), refused(6, 1));
        assert_eq!(both(&moved(unary(1, 1))), refused(6, 1));
        assert_eq!(both(&moved(bind(0, 0, 0))), refused(6, 1));
        assert_eq!(both(&moved(var(4))), refused(6, 1));
        assert_eq!(both(&over(vec![word(64, u64::MAX)], vec![statement(1, 0, 0, 0)])), refused(13, 0));
        assert_eq!(both(&over(vec![word(8, 1)], vec![statement(1, 3, 0, 0)])), refused(7, 0));
        let body =
            |c| over(vec![word(1, 1)], vec![statement(3, 0, 0, 0), statement(6, 0, 1, c), statement(3, 0, 0, 0)]);
        assert_eq!(both(&body(0)), refused(0, 0));
        assert_eq!(both(&body(1)), refused(7, 1));
        assert_eq!(both(&body(u32::MAX)), refused(7, 1));
        // the inner body ends behind the body around it, though not behind the table
        let guards = vec![word(1, 1), word(1, 1)];
        let inner = vec![statement(5, 0, 1, 0), statement(5, 1, 1, 0), statement(3, 0, 0, 0)];
        assert_eq!(both(&over(guards, inner)), refused(7, 1));
    }

    #[test]
    fn scopes() {
        let jump = |expressions: Vec<Expression>| {
            let root = expressions.len() as u32 - 1;
            both(&over(expressions, vec![statement(2, root, 0, 0)]))
        };
        assert_eq!(jump(vec![word(8, 1), var(3), bind(3, 0, 1)]), refused(0, 0));
        assert_eq!(jump(vec![word(8, 1), var(3), bind(3, 1, 0)]), refused(11, 1));
        assert_eq!(jump(vec![word(8, 1), word(8, 1), bind(3, 0, 1), word(8, 1), bind(3, 2, 3)]), refused(0, 0));
        assert_eq!(jump(vec![word(8, 1), word(8, 1), bind(3, 0, 1), word(8, 1), bind(3, 3, 2)]), refused(11, 2));
        assert_eq!(jump(vec![word(8, 1), word(8, 1), binary(1, 0, 0)]), refused(8, 0));
    }

    #[test]
    fn types_and_seals() {
        let load = |p| Expression { op: 3, p, a: 0, b: 1, ..Default::default() };
        let cast = |sub, p| Expression { op: 7, sub, p, a: 0, ..Default::default() };
        let to_x = |expressions: Vec<Expression>| {
            let root = expressions.len() as u32 - 1;
            both(&over(expressions, vec![statement(1, 0, root, 0)]))
        };
        assert_eq!(to_x(vec![var(2), var(0), load(8)]), refused(0, 0));
        assert_eq!(to_x(vec![var(2), var(0), load(16)]), refused(13, 0));
        assert_eq!(to_x(vec![var(2), var(1), load(8)]), ((0, 0), (14, 2)));
        assert_eq!(to_x(vec![var(0), var(2), load(8)]), refused(12, 2));
        assert_eq!(to_x(vec![var(1)]), ((0, 0), (15, 0)));
        assert_eq!(to_x(vec![var(1), var(0), bind(3, 0, 1)]), ((0, 0), (14, 2)));
        assert_eq!(
            (to_x(vec![word(7, 1), cast(1, 8)]), to_x(vec![word(7, 1), cast(3, 8)])),
            (refused(12, 1), refused(0, 0))
        );
        assert_eq!(
            (to_x(vec![word(9, 1), cast(4, 8)]), to_x(vec![word(9, 1), cast(2, 8)])),
            (refused(12, 1), refused(0, 0))
        );
    }
}
