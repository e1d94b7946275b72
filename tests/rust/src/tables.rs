//! Tables that keep every rule: made at random to a shape, and some made to a plan.

use crate::random::Random;
use crate::verdicts::{Expression, Statement, Table, Type, Variable, DEPTH, NESTING};

/// What a random table is made to. A table that must be clean has no sealed value where an open one is asked for;
/// another may have some.
#[derive(Clone, Copy, Debug)]
pub struct Shape {
    pub variables: usize,
    pub expressions: usize,
    pub statements: usize,
    pub depth: u32,
    pub nesting: u32,
    pub clean: bool,
}

pub fn variable(of_type: Type, sealed: bool, is_let: bool) -> Variable {
    let (kind, width, address_width) = match of_type {
        Type::Immediate(w) => (1, w as u8, 0),
        Type::Memory(w) => (2, 8, w as u8),
    };
    Variable { kind, label: sealed.into(), width, address_width, role: is_let.into(), zeros: [0; 3] }
}

pub fn var(a: u32) -> Expression {
    Expression { op: 1, a, ..Default::default() }
}

pub fn word(p: u8, value: u64) -> Expression {
    Expression { op: 2, p, b: value as u32, c: (value >> 32) as u32, ..Default::default() }
}

pub fn binary(sub: u8, a: u32, b: u32) -> Expression {
    Expression { op: 5, sub, a, b, ..Default::default() }
}

pub fn unary(sub: u8, a: u32) -> Expression {
    Expression { op: 6, sub, a, ..Default::default() }
}

pub fn bind(a: u32, b: u32, c: u32) -> Expression {
    Expression { op: 8, a, b, c, ..Default::default() }
}

pub fn unknown(of_type: Type) -> Expression {
    let (p, q) = match of_type {
        Type::Immediate(w) => (w as u8, 0),
        Type::Memory(w) => (8, w as u8),
    };
    Expression { op: 9, p, q, ..Default::default() }
}

pub fn statement(op: u8, a: u32, b: u32, c: u32) -> Statement {
    Statement { op, a, b, c, ..Default::default() }
}

pub fn table(
    address_width: u16,
    variables: Vec<Variable>,
    expressions: Vec<Expression>,
    statements: Vec<Statement>,
) -> Table {
    Table { format: 1, address_width, variables, expressions, statements }
}

/// The most expressions that a tree of binary operations has at a depth.
fn most(depth: u32) -> usize {
    (1 << depth.min(20)) - 1
}

/// A random accepted table. It has fewer expressions than its shape where its statements can't use so many.
pub fn accepted(random: &mut Random, shape: &Shape) -> Table {
    Maker::new(random, *shape).make()
}

struct Maker<'a> {
    random: &'a mut Random,
    shape: Shape,
    /// The widths that this table likes, so that variables and wants often agree.
    widths: Vec<u32>,
    t: Table,
    /// The let variables in force where the next expression stands.
    scope: Vec<u32>,
}

impl Maker<'_> {
    fn new(random: &mut Random, shape: Shape) -> Maker<'_> {
        let address_width = [8, 16, 32, 64, 1 + random.below(64) as u16][random.below(5) as usize];
        let mut widths = vec![1, 8, u32::from(address_width)];
        for _ in 0..random.below(4) {
            widths.push(1 + random.below(64) as u32);
        }
        let t = table(address_width, vec![], vec![], vec![]);
        Maker { random, shape, widths, t, scope: vec![] }
    }

    fn chance(&mut self, of: u64) -> bool {
        self.random.below(of) == 0
    }

    fn pick<T: Copy>(&mut self, from: &[T]) -> T {
        from[self.random.below(from.len() as u64) as usize]
    }

    fn width(&mut self) -> u32 {
        if self.chance(6) {
            return 1 + self.random.below(64) as u32;
        }
        let widths = self.widths.clone();
        self.pick(&widths)
    }

    fn make(mut self) -> Table {
        for _ in 0..self.shape.variables {
            let width = self.width();
            let of_type = if self.chance(4) { Type::Memory(width) } else { Type::Immediate(width) };
            let (sealed, is_let) = (self.chance(3), self.chance(3));
            self.t.variables.push(variable(of_type, sealed, is_let));
        }
        let mut sizes = self.sizes();
        self.block(self.shape.statements, 1, &mut sizes);
        if self.chance(2) {
            shuffle(self.random, &mut self.t);
        }
        self.t
    }

    /// How many expressions each use by a statement has: as many as the shape asks in all.
    fn sizes(&mut self) -> Vec<usize> {
        let Shape { expressions, statements, depth, .. } = self.shape;
        if expressions == 0 {
            return vec![];
        }
        let fewest = (expressions - 1) / most(depth) + 1;
        let most_uses = expressions.min(statements).max(fewest);
        let uses = fewest + self.random.below((most_uses - fewest + 1) as u64) as usize;
        let mut sizes = vec![1; uses];
        let mut left = expressions - uses;
        while left > 0 {
            let i = self.random.below(uses as u64) as usize;
            let more = (1 + self.random.below(1 + left as u64 / 4) as usize).min(most(depth) - sizes[i]);
            sizes[i] += more;
            left -= more;
        }
        sizes
    }

    /// Statements, as many as `length`, that use some of the sizes; all of them are used when the table is whole.
    fn block(&mut self, length: usize, nesting: u32, sizes: &mut Vec<usize>) {
        let end = self.t.statements.len() + length;
        while self.t.statements.len() < end {
            let must = sizes.len() >= self.shape.statements - self.t.statements.len();
            let room = if nesting < self.shape.nesting { end - self.t.statements.len() - 1 } else { 0 };
            if sizes.is_empty() || (!must && self.chance(8)) {
                let (op, number) = (3 + self.random.below(2) as u8, self.random.number() as u32);
                self.t.statements.push(statement(op, number, 0, 0));
            } else if room > 0 && self.chance(3) {
                self.nest(room, nesting, sizes);
            } else {
                let size = sizes.pop().expect("there is one");
                let simple = self.simple(size);
                self.t.statements.push(simple);
            }
        }
    }

    /// A while or an if, with at most `room` statements in its bodies.
    fn nest(&mut self, room: usize, nesting: u32, sizes: &mut Vec<usize>) {
        let size = sizes.pop().expect("there is one");
        let guard = self.tree(Type::Immediate(1), size, false);
        let b = 1 + self.random.below(room as u64) as usize;
        let is_if = self.chance(2);
        let c = if is_if { self.random.below((room - b + 1) as u64) as usize } else { 0 };
        self.t.statements.push(statement(if is_if { 6 } else { 5 }, guard, b as u32, c as u32));
        self.block(b, nesting + 1, sizes);
        self.block(c, nesting + 1, sizes);
    }

    /// A move or a jump of an expression of a size. A memory has size 1 or at least 4.
    fn simple(&mut self, size: usize) -> Statement {
        let target = self.random.below(self.t.variables.len().max(1) as u64) as u32;
        if let Some(&v) = self.t.variables.get(target as usize) {
            let fits = v.kind == 1 || size == 1 || size >= 4;
            if !v.is_let() && fits && !self.chance(4) {
                let root = self.tree(v.of_type(), size, v.is_sealed());
                return statement(1, target, root, 0);
            }
        }
        let root = self.tree(Type::Immediate(self.t.address_width.into()), size, false);
        statement(2, root, 0, 0)
    }

    fn tree(&mut self, of_type: Type, size: usize, sealed: bool) -> u32 {
        let depth = self.shape.depth;
        self.grow(of_type, size, depth, sealed || !self.shape.clean)
    }

    fn push(&mut self, expression: Expression) -> u32 {
        self.t.expressions.push(expression);
        self.t.expressions.len() as u32 - 1
    }

    /// An expression of a type, of so many expressions in all, no deeper than `depth`; it may be sealed where `sealed`.
    fn grow(&mut self, want: Type, size: usize, depth: u32, sealed: bool) -> u32 {
        if size == 1 {
            return self.leaf(want, sealed);
        }
        match want {
            Type::Immediate(width) => self.grow_immediate(width, size, depth, sealed),
            Type::Memory(address) => self.grow_memory(address, size, depth, sealed),
        }
    }

    fn leaf(&mut self, want: Type, sealed: bool) -> u32 {
        let fits: Vec<u32> = (0..self.t.variables.len() as u32)
            .filter(|&i| {
                let v = self.t.variables[i as usize];
                v.of_type() == want && (sealed || !v.is_sealed()) && (!v.is_let() || self.scope.contains(&i))
            })
            .collect();
        if !fits.is_empty() && !self.chance(3) {
            let mut i = self.pick(&fits);
            if !self.scope.is_empty() && self.chance(2) {
                i = fits.iter().copied().find(|i| self.scope.contains(i)).unwrap_or(i);
            }
            return self.push(var(i));
        }
        match want {
            Type::Immediate(width) if !self.chance(5) => {
                let long = self.random.word(width);
                let value = if self.chance(2) { long } else { long >> self.random.below(width.into()) };
                self.push(word(width as u8, value))
            }
            _ => self.push(unknown(want)),
        }
    }

    fn grow_immediate(&mut self, width: u32, size: usize, depth: u32, sealed: bool) -> u32 {
        loop {
            let grown = match self.pick(&[3, 5, 5, 6, 7, 8, 8, 10, 11, 12]) {
                8 => self.grow_let(Type::Immediate(width), size, depth, sealed),
                10 => self.grow_ite(Type::Immediate(width), size, depth, sealed),
                op @ (6 | 7 | 11) => self.grow_one(op, width, size, depth, sealed),
                op => self.grow_two(op, width, size, depth, sealed),
            };
            if let Some(e) = grown {
                return e;
            }
        }
    }

    fn grow_memory(&mut self, address: u32, size: usize, depth: u32, sealed: bool) -> u32 {
        let want = Type::Memory(address);
        loop {
            let grown = match self.pick(&[4, 4, 8, 10]) {
                8 => self.grow_let(want, size, depth, sealed),
                10 => self.grow_ite(want, size, depth, sealed),
                _ => {
                    let (p, q) = (8 * (1 + self.random.below(8) as u8), self.random.below(2) as u8);
                    let types = [want, Type::Immediate(address), Type::Immediate(p.into())];
                    let record = Expression { op: 4, p, q, ..Default::default() };
                    self.join(record, &types, &[sealed, false, sealed], size, depth)
                }
            };
            if let Some(e) = grown {
                return e;
            }
        }
    }

    /// A unary, a cast or an extract, where its operand can have the size.
    fn grow_one(&mut self, op: u8, width: u32, size: usize, depth: u32, sealed: bool) -> Option<u32> {
        let p = width as u8;
        let other = self.width();
        let (record, inner) = match op {
            6 => (unary(1 + self.random.below(2) as u8, 0), width),
            7 => {
                let sub = 1 + self.random.below(4) as u8;
                let inner = if sub <= 2 { other.max(width) } else { other.min(width) };
                (Expression { op, sub, p, ..Default::default() }, inner)
            }
            _ => {
                let highest = if self.chance(2) { 255 - (width - 1) } else { 64 };
                let q = self.random.below(u64::from(highest) + 1) as u8;
                (Expression { op, p: q + (p - 1), q, ..Default::default() }, other)
            }
        };
        self.join(record, &[Type::Immediate(inner)], &[sealed], size, depth)
    }

    /// A load, a binary or a concat, where it can have the width and its operands the size.
    fn grow_two(&mut self, op: u8, width: u32, size: usize, depth: u32, sealed: bool) -> Option<u32> {
        let want = Type::Immediate(width);
        let other = self.width();
        let (record, types, address_sealed) = match op {
            3 if width % 8 == 0 => {
                let q = self.random.below(2) as u8;
                let record = Expression { op, p: width as u8, q, ..Default::default() };
                (record, [Type::Memory(other), Type::Immediate(other)], false)
            }
            5 if width == 1 && self.chance(2) => {
                let sub = 14 + self.random.below(6) as u8;
                (binary(sub, 0, 0), [Type::Immediate(other); 2], sealed)
            }
            5 => (binary(1 + self.random.below(13) as u8, 0, 0), [want; 2], sealed),
            12 if width >= 2 => {
                let left = 1 + self.random.below(u64::from(width) - 1) as u32;
                let types = [Type::Immediate(left), Type::Immediate(width - left)];
                (Expression { op, ..Default::default() }, types, sealed)
            }
            _ => return None,
        };
        self.join(record, &types, &[sealed, address_sealed], size, depth)
    }

    fn grow_ite(&mut self, want: Type, size: usize, depth: u32, sealed: bool) -> Option<u32> {
        let record = Expression { op: 10, ..Default::default() };
        self.join(record, &[Type::Immediate(1), want, want], &[sealed; 3], size, depth)
    }

    /// A let of a variable that isn't in force, where there is one and the size can be split. Its variable may be in a
    /// let again inside what is bound.
    fn grow_let(&mut self, want: Type, size: usize, depth: u32, sealed: bool) -> Option<u32> {
        let count = self.t.variables.len() as u64;
        let v = if count == 0 { return None } else { self.random.below(count) as u32 };
        let variable = self.t.variables[v as usize];
        if !variable.is_let() || self.scope.contains(&v) {
            return None;
        }
        let types = [variable.of_type(), want];
        let sizes = self.split(&types, size, depth)?;
        let bound_sealed = variable.is_sealed() || !self.shape.clean;
        let body_first = self.chance(2);
        let mut bound = 0;
        if !body_first {
            bound = self.grow(types[0], sizes[0], depth - 1, bound_sealed);
        }
        self.scope.push(v);
        let body = self.grow(want, sizes[1], depth - 1, sealed);
        self.scope.pop();
        if body_first {
            bound = self.grow(types[0], sizes[0], depth - 1, bound_sealed);
        }
        Some(self.push(bind(v, bound, body)))
    }

    /// An expression over operands of these types, in an order of numbers that is any, where the size can be split.
    fn join(
        &mut self,
        mut record: Expression,
        types: &[Type],
        sealed: &[bool],
        size: usize,
        depth: u32,
    ) -> Option<u32> {
        let sizes = self.split(types, size, depth)?;
        let mut operands = vec![0; types.len()];
        let from = self.random.below(types.len() as u64) as usize;
        for i in (0..types.len()).map(|i| (i + from) % types.len()) {
            operands[i] = self.grow(types[i], sizes[i], depth - 1, sealed[i]);
        }
        for (field, operand) in operand_fields(&mut record).into_iter().zip(operands) {
            *field = operand;
        }
        Some(self.push(record))
    }

    /// Sizes for operands that add up to one less than `size`: tried at random, then evenly with the memories small.
    fn split(&mut self, types: &[Type], size: usize, depth: u32) -> Option<Vec<usize>> {
        let (n, whole) = (types.len(), size - 1);
        if whole < n {
            return None;
        }
        let fits = |sizes: &[usize]| {
            types
                .iter()
                .zip(sizes)
                .all(|(t, &s)| s >= 1 && s <= most(depth - 1) && (matches!(t, Type::Immediate(_)) || s == 1 || s >= 4))
        };
        for _ in 0..4 {
            let mut sizes = vec![1; n];
            let mut left = whole - n;
            for size in sizes.iter_mut().take(n - 1) {
                let more = self.random.below(left as u64 + 1) as usize;
                *size += more;
                left -= more;
            }
            sizes[n - 1] += left;
            sizes.rotate_left(self.random.below(n as u64) as usize);
            if fits(&sizes) {
                return Some(sizes);
            }
        }
        let mut sizes = vec![1; n];
        let wide: Vec<usize> = (0..n).filter(|&i| matches!(types[i], Type::Immediate(_))).collect();
        for i in 0..whole - n {
            sizes[*wide.get(i % wide.len().max(1))?] += 1;
        }
        fits(&sizes).then_some(sizes)
    }
}

/// Numbers the expressions anew, in any order in which operands stand before their users.
pub fn shuffle(random: &mut Random, t: &mut Table) {
    let old = std::mem::take(&mut t.expressions);
    let mut user = vec![None; old.len()];
    let mut missing = vec![0; old.len()];
    for (i, e) in old.iter().enumerate() {
        missing[i] = e.operands().len();
        e.operands().iter().for_each(|&o| user[o as usize] = Some(i));
    }
    let mut ready: Vec<usize> = (0..old.len()).filter(|&i| missing[i] == 0).collect();
    let mut new = vec![0; old.len()];
    while !ready.is_empty() {
        let i = ready.swap_remove(random.below(ready.len() as u64) as usize);
        let mut e = old[i];
        for operand in operand_fields(&mut e) {
            *operand = new[*operand as usize];
        }
        new[i] = t.expressions.len() as u32;
        t.expressions.push(e);
        if let Some(u) = user[i] {
            missing[u] -= 1;
            if missing[u] == 0 {
                ready.push(u);
            }
        }
    }
    for s in &mut t.statements {
        if let Some(root) = root_field(s) {
            *root = new[*root as usize];
        }
    }
}

/// The fields of an expression that are operands.
pub fn operand_fields(e: &mut Expression) -> Vec<&mut u32> {
    match e.op {
        3 | 5 | 12 => vec![&mut e.a, &mut e.b],
        4 | 10 => vec![&mut e.a, &mut e.b, &mut e.c],
        6 | 7 | 11 => vec![&mut e.a],
        8 => vec![&mut e.b, &mut e.c],
        _ => vec![],
    }
}

/// The field of a statement that names an expression.
pub fn root_field(s: &mut Statement) -> Option<&mut u32> {
    match s.op {
        1 => Some(&mut s.b),
        2 | 5 | 6 => Some(&mut s.a),
        _ => None,
    }
}

/// The scope's example of 72 bytes: one variable of 8 bits, moved the word 5.
pub fn example() -> Table {
    let x = variable(Type::Immediate(8), false, false);
    table(8, vec![x], vec![word(8, 5)], vec![statement(1, 0, 0, 0)])
}

/// A table with every op and every statement, accepted and clean.
pub fn every_op() -> Table {
    let node = |op, sub, p, q, a, b, c| Expression { op, sub, p, q, a, b, c };
    let (byte, memory) = (Type::Immediate(8), Type::Memory(8));
    let variables = vec![
        variable(byte, false, false),
        variable(memory, false, false),
        variable(byte, false, true),
        variable(byte, true, false),
        variable(memory, true, true),
    ];
    let expressions = vec![
        var(1),
        word(8, 5),
        node(3, 0, 8, 0, 0, 1, 0), // 2: load
        word(8, 200),
        binary(1, 2, 3),
        unary(1, 4),               // 5: neg
        node(7, 1, 4, 0, 5, 0, 0), // 6: cast
        unknown(Type::Immediate(4)),
        node(12, 0, 0, 0, 6, 7, 0), // 8: concat
        var(2),
        binary(14, 9, 8),
        word(8, 7),
        bind(2, 11, 10),
        word(8, 1),
        var(0),
        node(10, 0, 0, 0, 12, 13, 14), // 15: ite
        node(11, 0, 9, 2, 15, 0, 0),   // 16: extract
        var(1),
        word(8, 3),
        node(4, 0, 8, 1, 17, 18, 16), // 19: store
        unknown(memory),
        unknown(Type::Immediate(1)),
        node(10, 0, 0, 0, 21, 19, 20), // 22: ite of memories
        word(1, 0),
        word(1, 1),
        word(8, 255),
        word(4, 9),
        node(7, 3, 8, 0, 26, 0, 0), // 27: cast
        var(3),
        binary(19, 28, 27),
        node(7, 4, 8, 0, 29, 0, 0), // 30: cast
        unknown(memory),
        var(0),
        bind(4, 31, 32),
    ];
    let statements = vec![
        statement(1, 1, 22, 0),
        statement(5, 23, 2, 0),
        statement(3, 9, 0, 0),
        statement(4, 9, 0, 0),
        statement(6, 24, 1, 2),
        statement(2, 25, 0, 0),
        statement(1, 3, 30, 0),
        statement(1, 0, 33, 0),
    ];
    table(8, variables, expressions, statements)
}

/// Chains of `depth` expressions each, `chains` of them, each moved to the one variable: neg of neg of .. of a word.
pub fn chains(depth: u32, chains: u32) -> Table {
    let mut t = table(8, vec![variable(Type::Immediate(8), false, false)], vec![], vec![]);
    for _ in 0..chains {
        t.expressions.push(word(8, 5));
        for _ in 1..depth {
            let last = t.expressions.len() as u32 - 1;
            t.expressions.push(unary(1, last));
        }
        t.statements.push(statement(1, 0, t.expressions.len() as u32 - 1, 0));
    }
    t
}

/// Each expression is both operands of the next: as a tree it would have 2^2048 nodes.
pub fn doubled() -> Table {
    let mut t = table(8, vec![], vec![word(8, 1)], vec![statement(2, 2_047, 0, 0)]);
    t.expressions.extend((1..2_048).map(|i| binary(1, i - 1, i - 1)));
    t
}

/// Lets inside the bodies of lets, `depth` expressions deep, each of a variable of its own, around a read of the
/// outermost; so `trees` times, each jumped to.
pub fn lets(depth: u32, trees: u32) -> Table {
    let x = variable(Type::Immediate(8), false, true);
    let mut t = table(8, vec![x; depth as usize - 1], vec![], vec![]);
    for _ in 0..trees {
        t.expressions.push(var(depth - 2));
        for v in 0..depth - 1 {
            let body = t.expressions.len() as u32 - 1;
            t.expressions.push(word(8, 5));
            t.expressions.push(bind(v, body + 1, body));
        }
        t.statements.push(statement(2, t.expressions.len() as u32 - 1, 0, 0));
    }
    t
}

/// Statements nested to a depth, `deepest` deep, each the first of the other's body: by whiles, by ifs or by the else.
pub fn nested(op: u8, by_else: bool, deepest: u32) -> Table {
    let mut t = table(8, vec![], vec![], vec![]);
    for i in 1..deepest {
        t.expressions.push(word(1, 1));
        let root = t.expressions.len() as u32 - 1;
        let rest = if by_else { 2 * (deepest - i) - 1 } else { deepest - i };
        t.statements.push(if by_else { statement(6, root, 1, rest) } else { statement(op, root, rest, 0) });
        if by_else {
            t.statements.push(statement(3, 7, 0, 0));
        }
    }
    t.statements.push(statement(4, 7, 0, 0));
    t
}

/// Whiles and ifs inside each other in any mixture, the innermost statement of nesting `deepest`; each block may have
/// other statements around. Their guards are pushed to `expressions`.
pub fn tower(random: &mut Random, deepest: u32, expressions: &mut Vec<Expression>) -> Vec<Statement> {
    let simple = |random: &mut Random| vec![statement(3, 7, 0, 0); random.below(3) as usize];
    let mut block = vec![statement(4, 7, 0, 0)];
    for _ in 1..deepest {
        expressions.push(word(1, 1));
        let (guard, length) = (expressions.len() as u32 - 1, block.len() as u32);
        let other = simple(random);
        let more = other.len() as u32;
        let mut around = simple(random);
        match random.below(3) {
            0 => {
                around.push(statement(5, guard, length, 0));
                around.append(&mut block);
            }
            1 if more > 0 => {
                around.push(statement(6, guard, more, length));
                around.extend(other);
                around.append(&mut block);
            }
            _ => {
                around.push(statement(6, guard, length, more));
                around.append(&mut block);
                around.extend(other);
            }
        }
        around.extend(simple(random));
        block = around;
    }
    block
}

/// A table of `count` variables, one of `count` expressions and one of `count` statements, all else as small as can be.
pub fn many(count: usize) -> [Table; 3] {
    let x = variable(Type::Immediate(8), false, false);
    let variables = table(8, vec![x; count], vec![], vec![statement(3, 0, 0, 0)]);
    // a comb: each word but the first is added to the sum of a block of at most 32 words, and each block is moved
    let mut expressions = table(8, vec![x], vec![], vec![]);
    while expressions.expressions.len() < count {
        let left = count - expressions.expressions.len();
        expressions.expressions.push(word(8, 5));
        for _ in 0..(left - 1).min(60) / 2 {
            let sum = expressions.expressions.len() as u32 - 1;
            expressions.expressions.push(word(8, 1));
            expressions.expressions.push(binary(1, sum, sum + 1));
        }
        expressions.statements.push(statement(1, 0, expressions.expressions.len() as u32 - 1, 0));
    }
    if count == 0 {
        expressions.statements.push(statement(3, 0, 0, 0));
    }
    let statements = table(8, vec![], vec![], vec![statement(3, 0, 0, 0); count]);
    [variables, expressions, statements]
}

/// The limits of a table as one shape.
pub const LARGEST: Shape =
    Shape { variables: 256, expressions: 2_048, statements: 1_024, depth: DEPTH, nesting: NESTING, clean: true };

#[cfg(test)]
mod tests {
    use super::*;
    use crate::verdicts::{check, seal};

    #[test]
    fn random_tables_keep_the_rules() {
        let mut random = Random::new(2);
        for i in 0..3_000 {
            let shape = Shape {
                variables: random.below(20) as usize,
                expressions: random.below(60) as usize,
                statements: 1 + random.below(30) as usize,
                depth: 2 + random.below(10) as u32,
                nesting: 1 + random.below(8) as u32,
                clean: i % 2 == 0,
            };
            let bytes = accepted(&mut random, &shape).bytes();
            assert_eq!(check(&bytes), (0, 0), "{:?}", shape);
            assert!(!shape.clean || seal(&bytes) == (0, 0), "{:?}", shape);
        }
    }

    #[test]
    fn every_op_is_clean() {
        assert_eq!(seal(&every_op().bytes()), (0, 0));
    }

    #[test]
    fn the_largest_is_whole() {
        let t = accepted(&mut Random::new(3), &LARGEST);
        assert_eq!((t.variables.len(), t.expressions.len(), t.statements.len()), (256, 2_048, 1_024));
        assert_eq!(seal(&t.bytes()), (0, 0));
    }
}
