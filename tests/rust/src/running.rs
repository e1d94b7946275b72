//! A run of a table from the scope's words: the table as trees, starts (refusals 16 to 18), evaluation, running and the
//! numbers given back. Refusals 1 to 13 are those of `verdicts`, operations on words those of `words`.

use crate::verdicts::{self, Table, Type, Variable};
use crate::words::{self, Request};
use std::collections::BTreeMap;

/// The most entries that a log has room for, and the most bindings in force.
pub const ENTRIES: usize = 65_536;
const BINDINGS: usize = 64;

/// The names of the casts, 1 to 4.
const CASTS: [&str; 4] = ["low", "high", "signed", "unsigned"];

/// What a run is given.
#[derive(Clone, Debug, PartialEq, Eq)]
pub struct Start {
    pub table: Vec<u8>,
    pub state: Vec<u64>,
    pub log: Vec<u64>,
    pub count: u64,
    pub next: u64,
    pub budget: u32,
}

/// What a run gives back: code, place, ticks, log count, next address; and its buffers.
#[derive(Clone, Debug, PartialEq, Eq)]
pub struct End {
    pub numbers: [u64; 5],
    pub state: Vec<u64>,
    pub log: Vec<u64>,
}

/// How often a run met a case of a rule, by the case's name.
pub type Met = BTreeMap<&'static str, u64>;

/// The names of the cases, beside those of the binary operations on words that are known.
pub const CASES: [&str; 44] = [
    "neg",
    "not",
    "low",
    "high",
    "signed",
    "unsigned",
    "extract",
    "concat",
    "while",
    "while: its body",
    "while: left",
    "if: then",
    "if: no else",
    "if: else",
    "cpuexn or special",
    "jmp",
    "move: word",
    "move: unknown",
    "move: memory",
    "let",
    "let: in another's body",
    "var: bound",
    "var: absent",
    "var: unknown",
    "var: word",
    "var: memory",
    "an operand is unknown",
    "ite: then",
    "ite: else",
    "ite: unknown condition",
    "store: unknown address",
    "store: on unknown memory",
    "store: word",
    "store: unknown value",
    "an address wraps",
    "load: unknown address",
    "load: unknown memory",
    "load: unknown byte",
    "load: one byte",
    "load: wide, big",
    "load: wide, little",
    "load: at the chain's start",
    "load: further along the chain",
    "load: at the chain's end",
];

#[derive(Clone, Copy, Debug, PartialEq, Eq)]
pub enum Value {
    Word {
        width: u32,
        value: u128,
    },
    Unknown,
    /// A memory, by the entry that its chain starts at.
    Memory(u64),
}

/// An expression as a tree.
enum Node {
    Var(usize),
    Word { width: u32, value: u128 },
    Load { access: Access, memory: Box<Node>, address: Box<Node> },
    Store { access: Access, memory: Box<Node>, address: Box<Node>, value: Box<Node> },
    Binary { sub: u32, left: Box<Node>, right: Box<Node> },
    Unary { sub: u32, operand: Box<Node> },
    Cast { sub: u32, width: u32, operand: Box<Node> },
    Let { variable: usize, bound: Box<Node>, body: Box<Node> },
    Unknown,
    Ite { condition: Box<Node>, yes: Box<Node>, no: Box<Node> },
    Extract { high: u32, low: u32, operand: Box<Node> },
    Concat { left: Box<Node>, right: Box<Node> },
}

/// How many bytes a load or a store has, and whether the high one comes first.
#[derive(Clone, Copy)]
struct Access {
    bytes: u32,
    big: bool,
}

/// A statement with its number and its bodies.
struct Step {
    place: u64,
    action: Action,
}

enum Action {
    Move(usize, Node),
    Jump(Node),
    Nothing,
    While(Node, Vec<Step>),
    If(Node, Vec<Step>, Vec<Step>),
}

fn node(t: &Table, number: u32) -> Node {
    let e = t.expressions[number as usize];
    let sub = u32::from(e.sub);
    let (p, q) = (u32::from(e.p), u32::from(e.q));
    let access = Access { bytes: p / 8, big: q == 1 };
    let tree = |number| Box::new(node(t, number));
    match e.op {
        1 => Node::Var(e.a as usize),
        2 => Node::Word { width: p, value: u128::from(e.b) + (u128::from(e.c) << 32) },
        3 => Node::Load { access, memory: tree(e.a), address: tree(e.b) },
        4 => Node::Store { access, memory: tree(e.a), address: tree(e.b), value: tree(e.c) },
        5 => Node::Binary { sub, left: tree(e.a), right: tree(e.b) },
        6 => Node::Unary { sub, operand: tree(e.a) },
        7 => Node::Cast { sub, width: p, operand: tree(e.a) },
        8 => Node::Let { variable: e.a as usize, bound: tree(e.b), body: tree(e.c) },
        9 => Node::Unknown,
        10 => Node::Ite { condition: tree(e.a), yes: tree(e.b), no: tree(e.c) },
        11 => Node::Extract { high: p, low: q, operand: tree(e.a) },
        12 => Node::Concat { left: tree(e.a), right: tree(e.b) },
        op => unreachable!("op {} in an accepted table", op),
    }
}

/// The statements from `from` up to `end` as a block.
fn block(t: &Table, from: usize, end: usize) -> Vec<Step> {
    let mut steps = Vec::new();
    let mut at = from;
    while at < end {
        let s = t.statements[at];
        let (then, other) = (s.b as usize, s.c as usize);
        let body = at + 1;
        let (action, length) = match s.op {
            1 => (Action::Move(s.a as usize, node(t, s.b)), 0),
            2 => (Action::Jump(node(t, s.a)), 0),
            3 | 4 => (Action::Nothing, 0),
            5 => (Action::While(node(t, s.a), block(t, body, body + then)), then),
            6 => {
                let (yes, no) = (block(t, body, body + then), block(t, body + then, body + then + other));
                (Action::If(node(t, s.a), yes, no), then + other)
            }
            op => unreachable!("statement {} in an accepted table", op),
        };
        steps.push(Step { place: at as u64, action });
        at += 1 + length;
    }
    steps
}

/// Refusals 16 to 18 of a start of an accepted table, and the value of each variable, none where it is absent.
fn accept(t: &Table, start: &Start) -> Result<Vec<Option<Value>>, (u64, u64)> {
    let Start { state, log, count, next, .. } = start;
    let room = (log.len() / 4) as u64;
    let bad = [
        state.len() != 2 * t.variables.len(),
        log.len() % 4 != 0 || log.len() / 4 > ENTRIES,
        *count > room,
        u128::from(*next) >= 1 << t.address_width,
    ];
    if let Some(place) = bad.iter().position(|&bad| bad) {
        return Err((16, place as u64));
    }
    if let Some(entry) = (1..=*count).find(|&n| !entry_holds(log, n)) {
        return Err((17, entry));
    }
    let pairs = t.variables.iter().zip(state.chunks(2)).enumerate();
    pairs.map(|(i, (v, pair))| read_pair(v, [pair[0], pair[1]], log, *count).ok_or((18, i as u64))).collect()
}

/// An entry of the log, which has it; entries count from 1.
pub fn entry(log: &[u64], number: u64) -> [u64; 4] {
    [0, 1, 2, 3].map(|i| log[4 * (number as usize - 1) + i])
}

fn entry_holds(log: &[u64], number: u64) -> bool {
    let [previous, width, address, byte] = entry(log, number);
    previous < number
        && (1..=64).contains(&width)
        && u128::from(address) < 1 << width
        && byte <= 256
        && (previous == 0 || entry(log, previous)[1] == width)
}

/// The value that a pair of a start stands for: no answer where the pair isn't listed.
fn read_pair(v: &Variable, pair: [u64; 2], log: &[u64], count: u64) -> Option<Option<Value>> {
    if v.is_let() {
        return (pair == [0, 0]).then_some(None);
    }
    match (pair, v.of_type()) {
        ([0, 0], _) => Some(None),
        ([1, word], Type::Immediate(width)) if u128::from(word) < 1 << width => {
            Some(Some(Value::Word { width, value: word.into() }))
        }
        ([2, 0], _) => Some(Some(Value::Unknown)),
        ([3, head], Type::Memory(width)) if (1..=count).contains(&head) => {
            (entry(log, head)[1] == u64::from(width)).then_some(Some(Value::Memory(head)))
        }
        _ => None,
    }
}

fn write_pair(value: &Option<Value>) -> [u64; 2] {
    match *value {
        None => [0, 0],
        Some(Value::Word { value, .. }) => [1, value as u64],
        Some(Value::Unknown) => [2, 0],
        Some(Value::Memory(head)) => [3, head],
    }
}

/// A run, and what it met.
pub fn run(start: &Start) -> (End, Met) {
    let refused = |(code, place)| {
        let numbers = [code, place, 0, start.count, start.next];
        (End { numbers, state: start.state.clone(), log: start.log.clone() }, Met::new())
    };
    let table = match verdicts::accepted(&start.table) {
        Ok(table) => table,
        Err((code, place)) => return refused((code.into(), place.into())),
    };
    let values = match accept(&table, start) {
        Ok(values) => values,
        Err(refusal) => return refused(refusal),
    };
    let (log, count, next) = (start.log.clone(), start.count, start.next);
    let mut machine = Machine { values, log, count, next, ticks: 0, budget: start.budget.into(), met: Met::new() };
    let (code, place) = machine.run_block(&block(&table, 0, table.statements.len())).err().unwrap_or((0, 0));
    let Machine { values, log, count, next, ticks, met, .. } = machine;
    let state = values.iter().flat_map(write_pair).collect();
    (End { numbers: [code, place, ticks, count, next], state, log }, met)
}

/// A stop's code, and its code with the statement that it names.
type Code = u64;
type Stop = (Code, u64);

/// The bindings in force, the newest last.
type Bindings = Vec<(usize, Value)>;

struct Machine {
    values: Vec<Option<Value>>,
    log: Vec<u64>,
    count: u64,
    next: u64,
    ticks: u64,
    budget: u64,
    met: Met,
}

impl Machine {
    fn meet(&mut self, case: &'static str) {
        *self.met.entry(case).or_insert(0) += 1;
    }

    fn run_block(&mut self, steps: &[Step]) -> Result<(), Stop> {
        steps.iter().try_for_each(|step| self.run_step(step))
    }

    fn run_step(&mut self, step: &Step) -> Result<(), Stop> {
        let place = step.place;
        match &step.action {
            Action::While(guard, body) => {
                self.meet("while");
                while self.test(guard, place)? {
                    self.meet("while: its body");
                    self.run_block(body)?;
                }
                self.meet("while: left");
                Ok(())
            }
            Action::If(guard, yes, no) => {
                if self.test(guard, place)? {
                    self.meet("if: then");
                    self.run_block(yes)
                } else {
                    self.meet(if no.is_empty() { "if: no else" } else { "if: else" });
                    self.run_block(no)
                }
            }
            Action::Nothing => {
                self.meet("cpuexn or special");
                self.tick(place)
            }
            Action::Jump(to) => self.jump(to, place),
            Action::Move(variable, from) => self.assign(*variable, from, place),
        }
    }

    fn jump(&mut self, to: &Node, place: u64) -> Result<(), Stop> {
        self.tick(place)?;
        match self.evaluate(to).map_err(|code| (code, place))? {
            Value::Word { value, .. } => self.next = value as u64,
            _ => return Err((33, place)),
        }
        self.meet("jmp");
        Ok(())
    }

    fn assign(&mut self, variable: usize, from: &Node, place: u64) -> Result<(), Stop> {
        self.tick(place)?;
        let value = self.evaluate(from).map_err(|code| (code, place))?;
        self.values[variable] = Some(value);
        self.meet(match value {
            Value::Word { .. } => "move: word",
            Value::Unknown => "move: unknown",
            Value::Memory(_) => "move: memory",
        });
        Ok(())
    }

    /// Charges the tick of a statement that is begun.
    fn tick(&mut self, place: u64) -> Result<(), Stop> {
        if self.ticks == self.budget {
            return Err((35, place));
        }
        self.ticks += 1;
        Ok(())
    }

    /// A while's or an if's test of its guard, with its tick.
    fn test(&mut self, guard: &Node, place: u64) -> Result<bool, Stop> {
        self.tick(place)?;
        match self.evaluate(guard).map_err(|code| (code, place))? {
            Value::Word { value, .. } => Ok(value == 1),
            _ => Err((32, place)),
        }
    }

    fn evaluate(&mut self, node: &Node) -> Result<Value, Code> {
        self.value(node, &Bindings::new())
    }

    fn value(&mut self, node: &Node, bindings: &Bindings) -> Result<Value, Code> {
        match node {
            Node::Var(variable) => Ok(self.read(*variable, bindings)),
            Node::Word { width, value } => Ok(Value::Word { width: *width, value: *value }),
            Node::Unknown => Ok(Value::Unknown),
            Node::Load { access, memory, address } => {
                let address = self.value(address, bindings)?;
                let memory = self.value(memory, bindings)?;
                Ok(self.load(*access, memory, address))
            }
            Node::Store { access, memory, address, value } => {
                let value = self.value(value, bindings)?;
                let address = self.value(address, bindings)?;
                let memory = self.value(memory, bindings)?;
                self.store(*access, memory, address, value)
            }
            Node::Ite { condition, yes, no } => {
                let no = self.value(no, bindings)?;
                let yes = self.value(yes, bindings)?;
                let condition = self.value(condition, bindings)?;
                Ok(self.choose(condition, yes, no))
            }
            Node::Let { variable, bound, body } => {
                let bound = self.value(bound, bindings)?;
                if bindings.len() == BINDINGS {
                    return Err(36);
                }
                self.meet(if bindings.is_empty() { "let" } else { "let: in another's body" });
                let mut inner = bindings.clone();
                inner.push((*variable, bound));
                self.value(body, &inner)
            }
            _ => self.word_value(node, bindings),
        }
    }

    /// Ops 5, 6, 7, 11 and 12: unknown if an operand is.
    fn word_value(&mut self, node: &Node, bindings: &Bindings) -> Result<Value, Code> {
        match node {
            Node::Binary { sub, left, right } => {
                let left = self.value(left, bindings)?;
                let right = self.value(right, bindings)?;
                Ok(self.two(words::NAMES[*sub as usize - 1], left, right, |width, a, _, b| binary(*sub, width, a, b)))
            }
            Node::Unary { sub, operand } => {
                let operand = self.value(operand, bindings)?;
                Ok(self.one(["neg", "not"][*sub as usize - 1], operand, |width, a| unary(*sub, width, a)))
            }
            Node::Cast { sub, width, operand } => {
                let operand = self.value(operand, bindings)?;
                Ok(self.one(CASTS[*sub as usize - 1], operand, |from, a| cast(*sub, *width, from, a)))
            }
            Node::Extract { high, low, operand } => {
                let operand = self.value(operand, bindings)?;
                Ok(self.one("extract", operand, |_, a| word(high - low + 1, a.checked_shr(*low).unwrap_or(0))))
            }
            Node::Concat { left, right } => {
                let left = self.value(left, bindings)?;
                let right = self.value(right, bindings)?;
                Ok(self.two("concat", left, right, |high, a, low, b| word(high + low, (a << low) + b)))
            }
            _ => unreachable!("an op of its own in `value`"),
        }
    }

    /// A binding where there is one, else the state's value. An absent variable reads as unknown.
    fn read(&mut self, variable: usize, bindings: &Bindings) -> Value {
        if let Some((_, value)) = bindings.iter().rev().find(|(bound, _)| *bound == variable) {
            self.meet("var: bound");
            return *value;
        }
        let value = self.values[variable];
        self.meet(match value {
            None => "var: absent",
            Some(Value::Unknown) => "var: unknown",
            Some(Value::Word { .. }) => "var: word",
            Some(Value::Memory(_)) => "var: memory",
        });
        value.unwrap_or(Value::Unknown)
    }

    fn one(&mut self, name: &'static str, operand: Value, f: impl Fn(u32, u128) -> Value) -> Value {
        match operand {
            Value::Word { width, value } => {
                self.meet(name);
                f(width, value)
            }
            _ => {
                self.meet("an operand is unknown");
                Value::Unknown
            }
        }
    }

    fn two(
        &mut self,
        name: &'static str,
        left: Value,
        right: Value,
        f: impl Fn(u32, u128, u32, u128) -> Value,
    ) -> Value {
        match (left, right) {
            (Value::Word { width, value }, Value::Word { width: other, value: b }) => {
                self.meet(name);
                f(width, value, other, b)
            }
            _ => {
                self.meet("an operand is unknown");
                Value::Unknown
            }
        }
    }

    fn choose(&mut self, condition: Value, yes: Value, no: Value) -> Value {
        match condition {
            Value::Word { value: 1, .. } => {
                self.meet("ite: then");
                yes
            }
            Value::Word { .. } => {
                self.meet("ite: else");
                no
            }
            _ => {
                self.meet("ite: unknown condition");
                Value::Unknown
            }
        }
    }

    /// Appends an entry a byte, the high byte first where the store is a big one.
    fn store(&mut self, access: Access, memory: Value, address: Value, value: Value) -> Result<Value, Code> {
        let (width, address) = match address {
            Value::Word { width, value } => (width, value),
            _ => {
                self.meet("store: unknown address");
                return Ok(Value::Unknown);
            }
        };
        let mut head = match memory {
            Value::Memory(head) => head,
            _ => {
                self.meet("store: on unknown memory");
                0
            }
        };
        self.meet(match value {
            Value::Word { .. } => "store: word",
            _ => "store: unknown value",
        });
        for i in 0..access.bytes {
            let byte = match value {
                Value::Word { value, .. } => value >> (8 * access.rank(i)) & 0xFF,
                _ => 256,
            };
            let at = self.wrapped(width, address, i);
            self.append([head, width.into(), at, byte as u64])?;
            head = self.count;
        }
        Ok(Value::Memory(head))
    }

    fn append(&mut self, entry: [u64; 4]) -> Result<(), Code> {
        let at = 4 * self.count as usize;
        if at == self.log.len() {
            return Err(34);
        }
        self.log[at..at + 4].copy_from_slice(&entry);
        self.count += 1;
        Ok(())
    }

    /// The address `i` above another, modulo 2^width.
    fn wrapped(&mut self, width: u32, address: u128, i: u32) -> u64 {
        let sum = address + u128::from(i);
        if sum >= 1 << width {
            self.meet("an address wraps");
        }
        (sum % (1 << width)) as u64
    }

    fn load(&mut self, access: Access, memory: Value, address: Value) -> Value {
        let (width, address, head) = match (address, memory) {
            (Value::Word { width, value }, Value::Memory(head)) => (width, value, head),
            (Value::Word { .. }, _) => {
                self.meet("load: unknown memory");
                return Value::Unknown;
            }
            _ => {
                self.meet("load: unknown address");
                return Value::Unknown;
            }
        };
        let mut value = 0;
        for i in 0..access.bytes {
            let at = self.wrapped(width, address, i);
            match self.byte(head, at) {
                Some(byte) => value += byte << (8 * access.rank(i)),
                None => {
                    self.meet("load: unknown byte");
                    return Value::Unknown;
                }
            }
        }
        self.meet(match (access.bytes, access.big) {
            (1, _) => "load: one byte",
            (_, true) => "load: wide, big",
            (_, false) => "load: wide, little",
        });
        word(8 * access.bytes, value)
    }

    /// The byte at an address: of the first entry of the chain that has it, none where it is unknown or there is none.
    fn byte(&mut self, head: u64, address: u64) -> Option<u128> {
        let mut at = head;
        while at != 0 {
            let [previous, _, here, byte] = entry(&self.log, at);
            if here == address {
                self.meet(if at == head { "load: at the chain's start" } else { "load: further along the chain" });
                return (byte < 256).then_some(byte.into());
            }
            at = previous;
        }
        self.meet("load: at the chain's end");
        None
    }
}

impl Access {
    /// Which byte of the word stands at the i-th address, counted from the low one.
    fn rank(&self, i: u32) -> u32 {
        if self.big {
            self.bytes - 1 - i
        } else {
            i
        }
    }
}

/// A memory's stores as address and byte, the newest first.
pub fn stores(log: &[u64], head: u64) -> Vec<(u64, u64)> {
    let mut stores = Vec::new();
    let mut at = head;
    while at != 0 {
        let [previous, _, address, byte] = entry(log, at);
        stores.push((address, byte));
        at = previous;
    }
    stores
}

/// The word of a width that a number is, modulo 2^width.
fn word(width: u32, value: u128) -> Value {
    Value::Word { width, value: value % (1 << width) }
}

fn binary(sub: u32, width: u32, a: u128, b: u128) -> Value {
    match words::answer(&Request { sub, width, a: a as u64, b: b as u64 }) {
        words::Answer::Word(value) => word(if sub >= 14 { 1 } else { width }, value.into()),
        words::Answer::Unknown => Value::Unknown,
        words::Answer::Bad => unreachable!("sub {} at {} bits in an accepted table", sub, width),
    }
}

fn unary(sub: u32, width: u32, a: u128) -> Value {
    let modulus = 1u128 << width;
    word(width, if sub == 1 { modulus - a } else { modulus - 1 - a })
}

fn cast(sub: u32, width: u32, from: u32, a: u128) -> Value {
    let negative = a >> (from - 1) == 1;
    match sub {
        1 | 4 => word(width, a),
        2 => word(width, a >> (from - width)),
        _ if negative => word(width, (1 << width) - (1 << from) + a),
        _ => word(width, a),
    }
}

#[cfg(test)]
mod tests {
    use super::*;
    use crate::tables as made;
    use crate::tables::{example, statement, table, var, variable};
    use crate::verdicts::{Expression, Statement};

    fn started(t: &Table, state: Vec<u64>, budget: u32) -> Start {
        Start { table: t.bytes(), state, log: vec![0; 32], count: 0, next: 0, budget }
    }

    fn numbers(start: &Start) -> [u64; 5] {
        run(start).0.numbers
    }

    /// A table over x of 8 bits and m, a memory of 8-bit addresses.
    fn over(expressions: Vec<Expression>, statements: Vec<Statement>) -> Table {
        let variables = vec![variable(Type::Immediate(8), false, false), variable(Type::Memory(8), false, false)];
        table(8, variables, expressions, statements)
    }

    #[test]
    fn the_scopes_runs() {
        let (end, _) = run(&started(&example(), vec![0, 0], 10_000));
        assert_eq!((end.numbers, end.state), ([0, 0, 1, 0, 0], vec![1, 5]));

        let jumps =
            over(vec![made::word(8, 0x20), made::word(8, 0x30)], vec![statement(2, 0, 0, 0), statement(2, 1, 0, 0)]);
        assert_eq!(numbers(&started(&jumps, vec![0; 4], 9)), [0, 0, 2, 0, 0x30]);
        assert_eq!(numbers(&started(&jumps, vec![0; 4], 1)), [35, 1, 1, 0, 0x20]);

        let expressions =
            vec![var(0), made::word(8, 0), made::binary(15, 0, 1), var(0), made::word(8, 1), made::binary(2, 3, 4)];
        let loops = over(expressions, vec![statement(5, 2, 1, 0), statement(1, 0, 5, 0)]);
        let (end, _) = run(&started(&loops, vec![1, 3, 0, 0], 7));
        assert_eq!((end.numbers, end.state), ([0, 0, 7, 0, 0], vec![1, 0, 0, 0]));
        let (end, _) = run(&started(&loops, vec![1, 3, 0, 0], 6));
        assert_eq!((end.numbers, end.state), ([35, 0, 6, 0, 0], vec![1, 0, 0, 0]));
        assert_eq!(numbers(&started(&loops, vec![2, 0, 0, 0], 6)), [32, 0, 1, 0, 0]);
    }

    #[test]
    fn the_scopes_values() {
        let at_8 = |value| Value::Word { width: 8, value };
        assert_eq!(cast(2, 4, 8, 0xA5), Value::Word { width: 4, value: 0xA });
        assert_eq!(cast(3, 16, 8, 0x80), Value::Word { width: 16, value: 0xFF80 });
        assert_eq!(unary(1, 8, 0), at_8(0));
        assert_eq!(unary(2, 8, 0x0F), at_8(0xF0));
        let extract = |value| Node::Extract { high: 9, low: 2, operand: Box::new(Node::Word { width: 8, value }) };
        let mut machine =
            Machine { values: vec![], log: vec![0; 32], count: 0, next: 0, ticks: 0, budget: 0, met: Met::new() };
        assert_eq!(machine.evaluate(&extract(0xFF)), Ok(at_8(0x3F)));
        let little = Access { bytes: 2, big: false };
        let big = Access { bytes: 2, big: true };
        let value = Value::Word { width: 16, value: 0x1234 };
        let memory = machine.store(big, Value::Unknown, at_8(0xFF), value).expect("there is room");
        assert_eq!(machine.log[..8], [0, 8, 0xFF, 0x12, 1, 8, 0, 0x34]);
        assert_eq!(machine.load(little, memory, at_8(0xFF)), Value::Word { width: 16, value: 0x3412 });
        assert_eq!(machine.load(big, memory, at_8(0xFF)), value);
        assert_eq!(machine.load(big, memory, at_8(0)), Value::Unknown);
    }

    /// No accepted table has so many: 64 deep is 63 lets and what is in the last one's body.
    #[test]
    fn a_65th_binding_stops() {
        let tower = |lets: usize| {
            let leaf = || Box::new(Node::Word { width: 8, value: 1 });
            (0..lets).fold(leaf(), |body, variable| Box::new(Node::Let { variable, bound: leaf(), body }))
        };
        let mut machine =
            Machine { values: vec![], log: vec![], count: 0, next: 0, ticks: 0, budget: 0, met: Met::new() };
        assert_eq!(machine.evaluate(&tower(64)), Ok(Value::Word { width: 8, value: 1 }));
        assert_eq!(machine.evaluate(&tower(65)), Err(36));
    }

    #[test]
    fn starts() {
        let t = over(vec![], vec![statement(3, 0, 0, 0)]);
        let good = Start {
            table: t.bytes(),
            state: vec![1, 255, 3, 2],
            log: vec![0, 8, 1, 256, 1, 8, 255, 0],
            count: 2,
            next: 255,
            budget: 1,
        };
        let with = |change: &dyn Fn(&mut Start)| {
            let mut start = good.clone();
            change(&mut start);
            let [code, place, ..] = numbers(&start);
            (code, place)
        };
        assert_eq!(with(&|_| ()), (0, 0));
        assert_eq!(with(&|s| s.table.truncate(3)), (1, 0));
        assert_eq!(with(&|s| s.state.push(0)), (16, 0));
        assert_eq!(with(&|s| s.log.push(0)), (16, 1));
        assert_eq!(with(&|s| s.log.resize(4 * ENTRIES, 7)), (0, 0));
        assert_eq!(with(&|s| s.log.resize(4 * ENTRIES + 4, 7)), (16, 1));
        assert_eq!(with(&|s| s.count = 3), (16, 2));
        assert_eq!(with(&|s| s.next = 256), (16, 3));
        assert_eq!(with(&|s| s.log[0] = 1), (17, 1));
        assert_eq!(with(&|s| s.log[5] = 9), (17, 2));
        assert_eq!(with(&|s| s.log[3] = 257), (17, 1));
        assert_eq!(with(&|s| s.log[6] = 256), (17, 2));
        assert_eq!(with(&|s| s.state[1] = 256), (18, 0));
        assert_eq!(with(&|s| s.state[3] = 3), (18, 1));
        assert_eq!(with(&|s| s.state[..2].fill(2)), (18, 0));
        assert_eq!(with(&|s| s.state[2] = 1), (18, 1));
    }
}
