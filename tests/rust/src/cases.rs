//! The tables that verdicts are asked of: accepted ones of every op, clean and not, from the smallest to the largest;
//! ones with a fault for each refusal, at low and high places; ones with two faults; one with each byte changed; and
//! bytes that were damaged anywhere. They are the same each time.

use crate::damage::{self, Place};
use crate::random::Random;
use crate::tables::{
    accepted, binary, bind, chains, doubled, every_op, example, lets, many, nested, statement, table, tower, unary,
    var, variable, word, Shape, LARGEST,
};
use crate::verdicts::{check, seal, Expression, Statement, Table, Type, Variable};

/// How many tables of each sort are made of a small shape; of a middle and of a large one there are fewer.
const SMALL: usize = 500;
const MIDDLE: usize = 40;
const LARGE: usize = 4;

/// A table's bytes, and what is known of its answer from how it was made: nothing, a code, or a code and a place.
pub struct Made {
    pub bytes: Vec<u8>,
    pub code: Option<u32>,
    pub place: Option<u32>,
}

/// All of them.
pub fn cases() -> Vec<Made> {
    let mut random = Random::new(20_181_005);
    let mut made = Vec::new();
    planned(&mut made);
    every_byte(&mut made);
    mixtures(&mut made);
    bare(&mut random, &mut made);
    towers(&mut random, &mut made);
    sized(&mut random, small, SMALL, &mut made);
    sized(&mut random, middle, MIDDLE, &mut made);
    sized(&mut random, large, LARGE, &mut made);
    made
}

fn small(random: &mut Random) -> Shape {
    let statements = 1 + random.below(8) as usize;
    Shape {
        variables: random.below(9) as usize,
        expressions: random.below(20) as usize,
        statements,
        depth: 2 + random.below(6) as u32,
        nesting: 1 + random.below(4) as u32,
        clean: random.below(2) == 0,
    }
}

fn middle(random: &mut Random) -> Shape {
    Shape {
        variables: 1 + random.below(40) as usize,
        expressions: 30 + random.below(200) as usize,
        statements: 8 + random.below(60) as usize,
        depth: 8 + random.below(57) as u32,
        nesting: 1 + random.below(32) as u32,
        clean: random.below(2) == 0,
    }
}

/// A shape at the limits, or a little below, so that a fault that adds records has room.
fn large(random: &mut Random) -> Shape {
    let less = 200 * random.below(2) as usize;
    Shape {
        expressions: LARGEST.expressions - less,
        statements: LARGEST.statements - less,
        clean: random.below(2) == 0,
        ..LARGEST
    }
}

/// Tables of a size: accepted ones, and with one fault, two and raw damage; `count` of each sort.
fn sized(random: &mut Random, shape: fn(&mut Random) -> Shape, count: usize, made: &mut Vec<Made>) {
    for _ in 0..20 * count {
        let shape = shape(random);
        let bytes = accepted(random, &shape).bytes();
        made.push(Made { bytes, code: Some(0), place: Some(0) });
    }
    for code in 1..=15 {
        for place in [Place::Lowest, Place::Highest, Place::Any] {
            for _ in 0..count {
                made.extend(one_fault(random, shape, code, place));
            }
        }
        for other in (1..=15).chain([code; 5]) {
            for _ in 0..(count + 9) / 10 {
                made.push(two_faults(random, shape, code, other));
            }
        }
    }
    for _ in 0..25 * count {
        let shape = shape(random);
        let mut bytes = accepted(random, &shape).bytes();
        damage::raw(random, &mut bytes);
        made.push(Made { bytes, code: None, place: None });
    }
}

/// A table with a fault for a code, where one has a place for it. A fault of 1 to 7 answers with just that.
fn one_fault(random: &mut Random, shape: fn(&mut Random) -> Shape, code: u32, place: Place) -> Option<Made> {
    // few tables can leave a scope or leak what is sealed, so some more are tried
    for _ in 0..30 {
        let mut shape = shape(random);
        shape.clean = code >= 14 || shape.clean;
        let mut t = accepted(random, &shape);
        if code <= 4 {
            let mut bytes = t.bytes();
            damage::header(random, &mut bytes, code);
            return Some(Made { bytes, code: Some(code), place: Some(0) });
        }
        let put = damage::records(random, &mut t, code, place);
        let bytes = t.bytes();
        if put.is_some() && code <= 7 {
            return Some(Made { bytes, code: Some(code), place: put });
        }
        if seal(&bytes).0 == code {
            return Some(Made { bytes, code: Some(code), place: None });
        }
    }
    None
}

fn two_faults(random: &mut Random, shape: fn(&mut Random) -> Shape, code: u32, other: u32) -> Made {
    let shape = shape(random);
    let mut t = accepted(random, &shape);
    for code in [code, other] {
        let place = [Place::Lowest, Place::Highest, Place::Any][random.below(3) as usize];
        damage::records(random, &mut t, code, place);
    }
    let mut bytes = t.bytes();
    for code in [code.max(other), code.min(other)] {
        if code <= 4 && bytes.len() >= 32 {
            damage::header(random, &mut bytes, code);
        }
    }
    Made { bytes, code: None, place: None }
}

/// Tables made to a plan: at each limit and one past it, deep and hostile ones.
fn planned(made: &mut Vec<Made>) {
    let mut add = |t: Table, code, place| made.push(Made { bytes: t.bytes(), code: Some(code), place: Some(place) });
    add(example(), 0, 0);
    for count in [1, 2, 255, 256] {
        many(count).into_iter().for_each(|t| add(t, 0, 0));
    }
    let past = [(0, 257), (0, 65_536), (1, 2_049), (1, 4_096), (2, 0), (2, 1_025), (2, 2_000)];
    for (section, count) in past {
        add(many(count)[section].clone(), 3, 0);
    }
    for (section, count) in [(0, 0), (1, 0), (1, 2_047), (1, 2_048), (2, 1_023), (2, 1_024)] {
        add(many(count)[section].clone(), 0, 0);
    }
    for (depth, count) in [(1, 1), (1, 1_024), (2, 1_000), (63, 32), (64, 1), (64, 32)] {
        add(chains(depth, count), 0, 0);
    }
    for (depth, count) in [(65, 1), (65, 31), (66, 3), (128, 16), (2_048, 1)] {
        add(chains(depth, count), 9, 64);
    }
    // the last chain alone is too deep
    let mut t = chains(62, 32);
    let root = t.expressions.len() as u32 - 1;
    t.expressions.extend((0..3).map(|i| unary(2, root + i)));
    t.statements[31].b = root + 3;
    add(t, 9, 1_986);
    for depth in 2..=64 {
        add(lets(depth, 16), 0, 0);
    }
    add(lets(65, 2), 9, 128);
    scopes(&mut add);
    last(&mut add);
    for nesting in 1..=32 {
        add(nested(5, false, nesting), 0, 0);
        add(nested(6, false, nesting), 0, 0);
        add(nested(6, true, nesting), 0, 0);
    }
    for nesting in [33, 34, 100, 500] {
        add(nested(5, false, nesting), 10, 32);
        add(nested(6, false, nesting), 10, 32);
        add(nested(6, true, nesting), 10, 63);
    }
    add(nested(5, false, 1_024), 10, 32);
    add(nested(6, false, 1_024), 10, 32);
    add(doubled(), 8, 0);
}

/// Towers of 63 lets, numbered from the innermost. One, but not the outermost, has the variable of another, or reads it
/// in what it binds.
fn scopes(add: &mut impl FnMut(Table, u32, u32)) {
    let tower = lets(64, 1);
    for inner in 0..62 {
        let (bound, at) = (2 * inner + 1, 2 * inner + 2);
        for other in (inner % 5..63).step_by(5) {
            let mut hides = tower.clone();
            hides.expressions[at as usize].a = other;
            let refused = if other > inner { (11, at) } else { (11, 2 * other + 2) };
            let (code, place) = if other == inner { (0, 0) } else { refused };
            add(hides, code, place);

            let mut reads = tower.clone();
            reads.expressions[bound as usize] = var(other);
            let (code, place) = if other > inner { (0, 0) } else { (11, bound) };
            add(reads, code, place);
        }
    }
}

/// A fault in the last expression or statement of a table that has as many as it may.
fn last(add: &mut impl FnMut(Table, u32, u32)) {
    let byte = Type::Immediate(8);
    let e = 2_044;
    let node = |op, sub, p, a, b| Expression { op, sub, p, a, b, ..Default::default() };
    let tower = [word(8, 5), unary(1, e), unary(2, e + 1)];
    let moves = [statement(1, 0, e + 2, 0), statement(1, 0, e + 3, 0)];
    let with = |expressions: [Expression; 4], statements: [Statement; 2]| {
        let mut t = chains(2, 1_022);
        t.variables.extend([variable(byte, true, false), variable(byte, false, true)]);
        t.variables.extend([variable(Type::Memory(8), false, false), variable(Type::Immediate(16), false, false)]);
        t.expressions.extend(expressions);
        t.statements.extend(statements);
        t
    };
    let after_tower = |expression| [tower[0], tower[1], tower[2], expression];
    let load = [word(8, 5), var(3), var(1), node(3, 0, 8, e + 1, e + 2)];
    add(with(after_tower(word(8, 6)), moves), 0, 0);
    add(with(after_tower(unary(1, e + 3)), moves), 6, e + 3);
    add(with(after_tower(word(8, 6)), [moves[0], statement(1, 0, e + 4, 0)]), 7, 1_023);
    add(with(after_tower(word(8, 6)), [moves[0], statement(3, 0, 0, 0)]), 8, e + 3);
    let mut deep = chains(3, 661);
    deep.expressions.push(word(8, 5));
    deep.expressions.extend((1_983..2_047).map(|i| unary(1, i)));
    deep.statements.push(statement(1, 0, 2_047, 0));
    add(deep, 9, 2_047);
    let mut deep = nested(5, false, 33);
    deep.statements.splice(0..0, vec![statement(3, 0, 0, 0); 991]);
    add(deep, 10, 1_023);
    add(with(after_tower(var(2)), moves), 11, e + 3);
    add(with(after_tower(node(7, 1, 16, e + 2, 0)), [statement(3, 0, 0, 0), statement(1, 4, e + 3, 0)]), 12, e + 3);
    add(with(after_tower(word(8, 6)), [moves[0], statement(1, 4, e + 3, 0)]), 13, 1_023);
    add(with(load, [statement(1, 0, e, 0), statement(1, 1, e + 3, 0)]), 14, e + 3);
    add(with(after_tower(var(1)), moves), 15, 1_023);
}

/// A table of every op with one byte of one record changed: to each value where a byte is a field, else to a few.
fn every_byte(made: &mut Vec<Made>) {
    let t = every_op();
    let whole = t.bytes();
    let expressions = 32 + 8 * t.variables.len();
    made.push(Made { bytes: whole.clone(), code: Some(0), place: Some(0) });
    for at in 32..whole.len() {
        let within = if at < expressions { 0 } else { (at - expressions) % 16 };
        let values: Vec<u8> = match within {
            0..=3 => (0..=255).collect(),
            4 | 8 | 12 => (0..40).chain([128, 255]).collect(),
            _ => vec![1, 128, 255],
        };
        for value in values.into_iter().filter(|&value| value != whole[at]) {
            let mut bytes = whole.clone();
            bytes[at] = value;
            made.push(Made { bytes, code: None, place: None });
        }
    }
}

/// The types that `mixtures` mixes. Of each there are four variables: open, sealed, open let, sealed let.
const MIXED: [Type; 9] = [
    Type::Immediate(1),
    Type::Immediate(7),
    Type::Immediate(8),
    Type::Immediate(16),
    Type::Immediate(32),
    Type::Immediate(33),
    Type::Immediate(64),
    Type::Memory(8),
    Type::Memory(16),
];

/// Every op that has operands, with a few of the numbers that its rule compares; its operands are expressions 0, 1, 2.
fn nodes() -> Vec<Expression> {
    let node = |op, sub, p, q| Expression { op, sub, p, q, b: 1, c: 2, ..Default::default() };
    let one = |op, sub, p, q| Expression { op, sub, p, q, ..Default::default() };
    let mut nodes = vec![node(10, 0, 0, 0), Expression { op: 12, b: 1, ..Default::default() }];
    for p in [8, 16, 24, 64] {
        nodes.extend([Expression { op: 3, p, b: 1, ..Default::default() }, node(4, 0, p, 1)]);
    }
    nodes.extend([1, 13, 14, 19].map(|sub| binary(sub, 0, 1)));
    nodes.extend([1, 2].map(|sub| unary(sub, 0)));
    for sub in 1..=4 {
        nodes.extend([1, 7, 8, 16, 33, 64].map(|p| one(7, sub, p, 0)));
    }
    nodes.extend([(0, 0), (7, 0), (9, 2), (63, 0), (255, 192)].map(|(p, q)| one(11, 0, p, q)));
    // lets of 8 bits and of a memory, open and sealed
    nodes.extend([10, 11, 30, 31].map(|v| bind(v, 0, 1)));
    nodes
}

/// Every op over vars of every mixture of types and, where it has a type, of labels, used by every statement that can.
fn mixtures(made: &mut Vec<Made>) {
    let four = |t: Type| [0, 1, 2, 3].map(|i| variable(t, i % 2 == 1, i >= 2));
    let variables: Vec<Variable> = MIXED.into_iter().flat_map(four).collect();
    let mut uses: Vec<(u8, u32)> = (0..variables.len() as u32).filter(|v| v % 4 < 2).map(|v| (1, v)).collect();
    uses.extend([(2, 0), (5, 0), (6, 0)]);
    let used = |node: Expression, leaves: &[u32], (op, target): (u8, u32)| {
        let n = leaves.len() as u32;
        let first = match op {
            1 => statement(1, target, n, 0),
            2 => statement(2, n, 0, 0),
            _ => statement(op, n, 1, 0),
        };
        let expressions = leaves.iter().map(|&v| var(v)).chain([node]).collect();
        let t = table(8, variables.clone(), expressions, vec![first, statement(3, 0, 0, 0)]);
        Made { bytes: t.bytes(), code: None, place: None }
    };
    for node in nodes() {
        let count = node.operands().len() as u32;
        for mixture in 0..9u32.pow(count) {
            let leaves: Vec<u32> = (0..count).map(|i| 4 * (mixture / 9u32.pow(i) % 9)).collect();
            let jumped = used(node, &leaves, (2, 0));
            let untyped = check(&jumped.bytes).0 == 12;
            made.push(jumped);
            for labels in 0..if untyped { 0 } else { 1u32 << count } {
                let leaves: Vec<u32> = leaves.iter().enumerate().map(|(i, v)| v + (labels >> i & 1)).collect();
                made.extend(uses.iter().map(|&by| used(node, &leaves, by)));
            }
        }
    }
}

/// Mixtures of whiles and ifs that are nested as deep as may be, or a little less, and with a body that is too long.
fn towers(random: &mut Random, made: &mut Vec<Made>) {
    for i in 0..600 {
        let mut expressions = vec![];
        let statements = tower(random, 32 - i % 4, &mut expressions);
        let mut t = table(8, vec![], expressions, statements);
        made.push(Made { bytes: t.bytes(), code: Some(0), place: Some(0) });
        let place = [Place::Lowest, Place::Highest, Place::Any][i as usize % 3];
        if let Some(put) = damage::overrun(random, &mut t, place) {
            made.push(Made { bytes: t.bytes(), code: Some(7), place: Some(put) });
        }
    }
}

/// Bytes that never were a table, and good ones cut off anywhere.
fn bare(random: &mut Random, made: &mut Vec<Made>) {
    let mut add = |bytes: Vec<u8>, code| made.push(Made { bytes, code, place: Some(0) });
    for length in (0..200).chain([4_096, 65_535, 65_536, 100_000]) {
        add(vec![0xFF; length], Some(if length < 32 { 1 } else { 2 }));
        add(vec![0; length], Some(if length < 32 { 1 } else { 2 }));
    }
    // 32 bytes that claim 4 GB: by a count, by the total, by offsets that wrap
    let header = example().bytes()[..32].to_vec();
    for (at, number, code) in [(4, 0x2000_0000u32, 3), (12, 0x1000_0000, 3), (20, 0x1000_0000, 3), (28, u32::MAX, 4)] {
        let mut bytes = header.clone();
        bytes[at..at + 4].copy_from_slice(&number.to_le_bytes());
        add(bytes, Some(code));
    }
    for _ in 0..1_000 {
        let length = random.below(300) as usize;
        let mut bytes: Vec<u8> = (0..length).map(|_| random.number() as u8).collect();
        add(bytes.clone(), None);
        // with a good start, so that more of it is looked at
        let good = random.below(33).min(length as u64) as usize;
        bytes[..good].copy_from_slice(&header[..good]);
        add(bytes, None);
    }
    let shape = middle(random);
    let whole = accepted(random, &shape).bytes();
    for length in 0..whole.len().min(1_500) {
        add(whole[..length].to_vec(), Some(if length < 32 { 1 } else { 4 }));
    }
}
