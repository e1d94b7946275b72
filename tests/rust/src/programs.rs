//! Tables to run: random ones that are accepted and get far. Their loops mostly end, their addresses often meet, and
//! stores stand wherever a memory may, so that the order of evaluation shows in the log.

use crate::random::Random;
use crate::tables::{binary, bind, operand_fields, shuffle, statement, table, unary, unknown, var, variable, word};
use crate::verdicts::{Expression, Statement, Table, Type};

/// Expressions and statements beyond which a table gets leaves and simple statements only.
const EXPRESSIONS: usize = 600;
const STATEMENTS: usize = 120;

/// What a table is made to. One that must be clean has no sealed value where an open one is asked for.
#[derive(Clone, Copy, Debug)]
pub struct Shape {
    pub statements: usize,
    pub depth: u32,
    pub nesting: u32,
    pub clean: bool,
}

/// A random shape, most of them small.
pub fn shape(random: &mut Random, clean: bool) -> Shape {
    Shape {
        statements: 1 + random.below(7) as usize,
        depth: 1 + random.below(6) as u32,
        nesting: 1 + random.below(4) as u32,
        clean,
    }
}

/// A random accepted table, clean where the shape asks for it.
pub fn program(random: &mut Random, shape: &Shape) -> Table {
    let mut writer = Writer::new(random, *shape);
    writer.declare();
    writer.t.statements = writer.block(shape.statements, 1);
    let Writer { random, mut t, .. } = writer;
    if random.below(2) == 0 {
        shuffle(random, &mut t);
    }
    t
}

/// A word of an address width that other addresses are likely to be near: at either end of the memory, or at one place.
pub fn address(random: &mut Random, width: u32) -> u64 {
    let ones = u64::MAX >> (64 - width);
    let near = random.below(4);
    match random.below(8) {
        0..=2 => near & ones,
        3..=5 => ones - (near & ones),
        6 => (0x1234_5678_9ABC_DEF0 + near) & ones,
        _ => random.word(width),
    }
}

/// A word of a width: at an edge, short, or any.
pub fn value(random: &mut Random, width: u32) -> u64 {
    let ones = u64::MAX >> (64 - width);
    match random.below(6) {
        0 => 0,
        1 => 1,
        2 => ones,
        3 => 1 << (width - 1),
        4 => random.below(20) & ones,
        _ => random.word(width),
    }
}

struct Writer<'a> {
    random: &'a mut Random,
    shape: Shape,
    /// The types that this table likes, so that variables and wants often agree.
    widths: Vec<u32>,
    address_widths: Vec<u32>,
    /// One leaf in so many is unknown.
    rare: u64,
    t: Table,
    /// The let variables in force where the next expression stands.
    scope: Vec<u32>,
    written: usize,
}

impl Writer<'_> {
    fn new(random: &mut Random, shape: Shape) -> Writer<'_> {
        let any = |random: &mut Random| 1 + random.below(64) as u32;
        let address_width = [8, 16, 32, 64, any(random)][random.below(5) as usize];
        let mut widths = vec![1, 8, 16, 64, address_width];
        widths.push(any(random));
        let mut address_widths = vec![[8, 16, 32, 64, any(random)][random.below(5) as usize]];
        if random.below(2) == 0 {
            address_widths.push([1, 2, 3, 63, any(random)][random.below(5) as usize]);
        }
        let rare = [5, 15, 1_000_000][random.below(3) as usize];
        let t = table(address_width as u16, vec![], vec![], vec![]);
        Writer { random, shape, widths, address_widths, rare, t, scope: vec![], written: 0 }
    }

    fn chance(&mut self, of: u64) -> bool {
        self.random.below(of) == 0
    }

    fn pick<T: Copy>(&mut self, from: &[T]) -> T {
        from[self.random.below(from.len() as u64) as usize]
    }

    fn width(&mut self) -> u32 {
        let widths = self.widths.clone();
        if self.chance(8) {
            1 + self.random.below(64) as u32
        } else {
            self.pick(&widths)
        }
    }

    /// The address width of a memory.
    fn address_width(&mut self) -> u32 {
        let widths = self.address_widths.clone();
        self.pick(&widths)
    }

    fn any_type(&mut self) -> Type {
        if self.chance(3) {
            Type::Memory(self.address_width())
        } else {
            Type::Immediate(self.width())
        }
    }

    /// The variables: memories, immediates and let variables in any order, an open counter among them.
    fn declare(&mut self) {
        let mut variables = vec![variable(Type::Immediate(8), false, false)];
        for _ in 0..1 + self.random.below(2) {
            let of_type = Type::Memory(self.address_width());
            variables.push(variable(of_type, self.random.below(3) == 0, false));
        }
        for _ in 0..self.random.below(9) {
            let of_type = self.any_type();
            let (sealed, is_let) = (self.chance(3), self.chance(2));
            variables.push(variable(of_type, sealed, is_let));
        }
        while !variables.is_empty() {
            let i = self.random.below(variables.len() as u64) as usize;
            self.t.variables.push(variables.swap_remove(i));
        }
    }

    /// State variables that will do.
    fn states(&self, will_do: impl Fn(Type, bool) -> bool) -> Vec<u32> {
        let variables = self.t.variables.iter().enumerate();
        variables.filter(|(_, v)| !v.is_let() && will_do(v.of_type(), v.is_sealed())).map(|(i, _)| i as u32).collect()
    }

    fn block(&mut self, count: usize, nesting: u32) -> Vec<Statement> {
        (0..count).flat_map(|_| self.statement(nesting)).collect()
    }

    /// A statement with its bodies.
    fn statement(&mut self, nesting: u32) -> Vec<Statement> {
        self.written += 1;
        let nests = nesting < self.shape.nesting && self.written < STATEMENTS;
        match self.random.below(16) {
            0..=2 if nests => self.repeat(nesting),
            3..=5 if nests => self.branch(nesting),
            6 => {
                let (op, number) = (3 + self.random.below(2) as u8, self.random.number() as u32);
                vec![statement(op, number, 0, 0)]
            }
            7 => {
                let to = self.tree(Type::Immediate(self.t.address_width.into()), false);
                vec![statement(2, to, 0, 0)]
            }
            _ => vec![self.assign()],
        }
    }

    fn assign(&mut self) -> Statement {
        let memories = self.states(|t, _| matches!(t, Type::Memory(_)));
        let all = self.states(|_, _| true);
        let target = if self.chance(2) { self.pick(&memories) } else { self.pick(&all) };
        let v = self.t.variables[target as usize];
        let from = self.tree(v.of_type(), v.is_sealed());
        statement(1, target, from, 0)
    }

    fn branch(&mut self, nesting: u32) -> Vec<Statement> {
        let guard = self.guard();
        let (yes, no) = (1 + self.random.below(3) as usize, self.random.below(3) as usize);
        let (yes, no) = (self.block(yes, nesting + 1), self.block(no, nesting + 1));
        let mut statements = vec![statement(6, guard, yes.len() as u32, no.len() as u32)];
        statements.extend(yes);
        statements.extend(no);
        statements
    }

    /// A while: over a counter that falls, or with a guard of any sort.
    fn repeat(&mut self, nesting: u32) -> Vec<Statement> {
        let counters = self.states(|t, sealed| matches!(t, Type::Immediate(_)) && !sealed);
        let counter = self.pick(&counters);
        let falls = !self.chance(4);
        let guard = if falls { self.counts(counter) } else { self.guard() };
        let before = self.random.below(3) as usize;
        let mut body = self.block(before, nesting + 1);
        if falls {
            body.push(self.count_down(counter));
            let after = self.random.below(2) as usize;
            body.extend(self.block(after, nesting + 1));
        } else if body.is_empty() {
            body.push(statement(3, 1, 0, 0));
        }
        let mut statements = vec![statement(5, guard, body.len() as u32, 0)];
        statements.extend(body);
        statements
    }

    fn width_of(&self, variable: u32) -> u8 {
        self.t.variables[variable as usize].width
    }

    /// `x neq 0`, or `0 lt x`.
    fn counts(&mut self, counter: u32) -> u32 {
        let width = self.width_of(counter);
        let (x, zero) = (self.push(var(counter)), self.push(word(width, 0)));
        let guard = if self.chance(2) { binary(15, x, zero) } else { binary(16, zero, x) };
        self.push(guard)
    }

    fn count_down(&mut self, counter: u32) -> Statement {
        let width = self.width_of(counter);
        let (x, one) = (self.push(var(counter)), self.push(word(width, 1)));
        let less = self.push(binary(2, x, one));
        statement(1, counter, less, 0)
    }

    fn guard(&mut self) -> u32 {
        match self.random.below(8) {
            0 => self.push(word(1, 1)),
            1 => self.push(word(1, 0)),
            2..=3 => self.tree(Type::Immediate(1), false),
            _ => {
                let sub = 14 + self.random.below(6) as u8;
                let of_type = Type::Immediate(self.width());
                self.join(binary(sub, 0, 0), &[of_type; 2], &[!self.shape.clean; 2], self.shape.depth.min(3))
            }
        }
    }

    fn tree(&mut self, of_type: Type, sealed: bool) -> u32 {
        let depth = self.shape.depth;
        self.grow(of_type, depth, sealed || !self.shape.clean)
    }

    fn push(&mut self, expression: Expression) -> u32 {
        self.t.expressions.push(expression);
        self.t.expressions.len() as u32 - 1
    }

    /// An expression of a type, no deeper than `depth`; it may be sealed where `sealed`.
    fn grow(&mut self, want: Type, depth: u32, sealed: bool) -> u32 {
        let short = matches!(want, Type::Immediate(_)) && self.chance(5);
        if depth <= 1 || short || self.t.expressions.len() > EXPRESSIONS {
            return self.leaf(want, sealed);
        }
        if self.chance(6) {
            return self.grow_let(want, depth, sealed);
        }
        if self.chance(8) {
            let record = Expression { op: 10, ..Default::default() };
            return self.join(record, &[Type::Immediate(1), want, want], &[sealed; 3], depth);
        }
        match want {
            Type::Immediate(width) => self.grow_immediate(width, depth, sealed),
            Type::Memory(width) => self.grow_store(width, depth, sealed),
        }
    }

    fn leaf(&mut self, want: Type, sealed: bool) -> u32 {
        let fits: Vec<u32> = (0..self.t.variables.len() as u32)
            .filter(|&i| {
                let v = self.t.variables[i as usize];
                v.of_type() == want && (sealed || !v.is_sealed()) && (!v.is_let() || self.scope.contains(&i))
            })
            .collect();
        let bound: Vec<u32> = fits.iter().copied().filter(|i| self.scope.contains(i)).collect();
        if self.chance(self.rare) {
            return self.push(unknown(want));
        }
        if !bound.is_empty() && self.chance(2) {
            let i = self.pick(&bound);
            return self.push(var(i));
        }
        if !fits.is_empty() && !self.chance(4) {
            let i = self.pick(&fits);
            return self.push(var(i));
        }
        match want {
            Type::Immediate(width) => {
                let value = value(self.random, width);
                self.push(word(width as u8, value))
            }
            _ if fits.is_empty() => self.push(unknown(want)),
            _ => {
                let i = self.pick(&fits);
                self.push(var(i))
            }
        }
    }

    fn grow_immediate(&mut self, width: u32, depth: u32, sealed: bool) -> u32 {
        let other = self.width();
        let want = Type::Immediate(width);
        let p = width as u8;
        match self.random.below(10) {
            0 => {
                let sub = 1 + self.random.below(2) as u8;
                self.join(unary(sub, 0), &[want], &[sealed], depth)
            }
            1 => {
                let sub = 1 + self.random.below(4) as u8;
                let inner = if sub <= 2 { other.max(width) } else { other.min(width) };
                let record = Expression { op: 7, sub, p, ..Default::default() };
                self.join(record, &[Type::Immediate(inner)], &[sealed], depth)
            }
            2 => {
                let highest = if self.chance(6) { 255 - (width - 1) } else { other };
                let q = self.random.below(u64::from(highest) + 1).min(192) as u8;
                let record = Expression { op: 11, p: q + (p - 1), q, ..Default::default() };
                self.join(record, &[Type::Immediate(other)], &[sealed], depth)
            }
            3 if width >= 2 => {
                let left = 1 + self.random.below(u64::from(width) - 1) as u32;
                let types = [Type::Immediate(left), Type::Immediate(width - left)];
                self.join(Expression { op: 12, ..Default::default() }, &types, &[sealed; 2], depth)
            }
            4..=6 if width % 8 == 0 => self.grow_load(p, depth, sealed),
            _ if width == 1 && self.chance(2) => {
                let sub = 14 + self.random.below(6) as u8;
                self.join(binary(sub, 0, 0), &[Type::Immediate(other); 2], &[sealed; 2], depth)
            }
            _ => {
                let sub = 1 + self.random.below(13) as u8;
                self.join(binary(sub, 0, 0), &[want; 2], &[sealed; 2], depth)
            }
        }
    }

    fn grow_load(&mut self, p: u8, depth: u32, sealed: bool) -> u32 {
        let q = self.random.below(2) as u8;
        let width = self.address_width();
        let mut record = Expression { op: 3, p, q, ..Default::default() };
        if depth >= 3 && self.chance(2) {
            (record.a, record.b) = self.grow_near(width, p, depth - 1, sealed);
        } else if self.chance(2) {
            record.b = self.grow_address(width, depth - 1);
            record.a = self.grow(Type::Memory(width), depth - 1, sealed);
        } else {
            record.a = self.grow(Type::Memory(width), depth - 1, sealed);
            record.b = self.grow_address(width, depth - 1);
        }
        self.push(record)
    }

    /// A store and an address at it or a little above, so that a load of size `p` there often finds its bytes.
    fn grow_near(&mut self, width: u32, p: u8, depth: u32, sealed: bool) -> (u32, u32) {
        let ones = u64::MAX >> (64 - width);
        let (at, above) = (address(self.random, width), self.random.below(8) / 5);
        let size = p.max(8 * (1 + self.random.below(8) as u8));
        let near = self.push(word(width as u8, at.wrapping_add(above) & ones));
        let mut store = Expression { op: 4, p: size, q: self.random.below(2) as u8, ..Default::default() };
        store.a = self.grow(Type::Memory(width), depth - 1, sealed);
        store.b = self.push(word(width as u8, at));
        store.c = self.grow(Type::Immediate(size.into()), depth - 1, sealed);
        (self.push(store), near)
    }

    fn grow_store(&mut self, width: u32, depth: u32, sealed: bool) -> u32 {
        let (p, q) = (8 * (1 + self.random.below(8) as u8), self.random.below(2) as u8);
        let p = if self.chance(2) { 8 * (1 + p / 32) } else { p };
        let mut record = Expression { op: 4, p, q, ..Default::default() };
        for i in [[0, 1, 2], [2, 1, 0], [1, 2, 0]][self.random.below(3) as usize] {
            match i {
                0 => record.a = self.grow(Type::Memory(width), depth - 1, sealed),
                1 => record.b = self.grow_address(width, depth - 1),
                _ => record.c = self.grow(Type::Immediate(p.into()), depth - 1, sealed),
            }
        }
        self.push(record)
    }

    /// An address of a width, open in a table that must be clean: mostly a word that others are near.
    fn grow_address(&mut self, width: u32, depth: u32) -> u32 {
        if depth <= 1 || !self.chance(3) {
            let address = address(self.random, width);
            return self.push(word(width as u8, address));
        }
        self.grow(Type::Immediate(width), depth, !self.shape.clean)
    }

    /// A let of a variable that isn't in force, where there is one, else a leaf. What is bound may have a let of it again.
    fn grow_let(&mut self, want: Type, depth: u32, sealed: bool) -> u32 {
        let free: Vec<u32> = (0..self.t.variables.len() as u32)
            .filter(|i| self.t.variables[*i as usize].is_let() && !self.scope.contains(i))
            .collect();
        if free.is_empty() {
            return self.leaf(want, sealed);
        }
        let v = self.pick(&free);
        let variable = self.t.variables[v as usize];
        let (of_type, bound_sealed) = (variable.of_type(), variable.is_sealed() || !self.shape.clean);
        let body_first = self.chance(2);
        let mut bound = 0;
        if !body_first {
            bound = self.grow(of_type, depth - 1, bound_sealed);
        }
        self.scope.push(v);
        let body = self.grow(want, depth - 1, sealed);
        self.scope.pop();
        if body_first {
            bound = self.grow(of_type, depth - 1, bound_sealed);
        }
        self.push(bind(v, bound, body))
    }

    /// An expression over operands of these types, their numbers in any order.
    fn join(&mut self, mut record: Expression, types: &[Type], sealed: &[bool], depth: u32) -> u32 {
        let mut operands = vec![0; types.len()];
        let from = self.random.below(types.len() as u64) as usize;
        for i in (0..types.len()).map(|i| (i + from) % types.len()) {
            operands[i] = self.grow(types[i], depth.max(2) - 1, sealed[i]);
        }
        for (field, operand) in operand_fields(&mut record).into_iter().zip(operands) {
            *field = operand;
        }
        self.push(record)
    }
}

#[cfg(test)]
mod tests {
    use super::*;
    use crate::verdicts::{check, seal};

    #[test]
    fn programs_keep_the_rules() {
        let mut random = Random::new(4);
        for i in 0..5_000 {
            let shape = shape(&mut random, i % 2 == 0);
            let bytes = program(&mut random, &shape).bytes();
            assert_eq!(check(&bytes), (0, 0), "{:?}", shape);
            assert!(!shape.clean || seal(&bytes) == (0, 0), "{:?}", shape);
        }
    }
}
