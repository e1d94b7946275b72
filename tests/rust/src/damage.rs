//! Faults put into tables: for each refusal some, at a low place, a high one or any.

use crate::random::Random;
use crate::tables::{operand_fields, root_field, tower, unary, unknown, word};
use crate::verdicts::{Expression, Statement, Table, Type, Variable};

/// Which of the places that can be damaged is.
#[derive(Clone, Copy, Debug, PartialEq, Eq)]
pub enum Place {
    Lowest,
    Highest,
    Any,
}

/// Puts a fault into a table that is meant for a refusal, 5 to 15. Gives the place where it went, none where the table
/// has no place for it. A fault of 5, 6 or 7 is one of just that place; others may show elsewhere or as another code.
pub fn records(random: &mut Random, t: &mut Table, code: u32, place: Place) -> Option<u32> {
    match code {
        5 => {
            let i = at(random, place, 0..t.variables.len(), |_| true)?;
            t.variables[i] = bad_variable(random, t.variables[i]);
            Some(i as u32)
        }
        6 => {
            let i = at(random, place, 0..t.expressions.len(), |_| true)?;
            t.expressions[i] = bad_expression(random, t, i);
            Some(i as u32)
        }
        7 => {
            let i = at(random, place, 0..t.statements.len(), |_| true)?;
            t.statements[i] = bad_statement(random, t, i);
            Some(i as u32)
        }
        8 => use_another(random, t, place),
        9 => deepen(random, t, place),
        10 => nest(random, t, place),
        11 => leave_scope(random, t, place),
        12 => change_type(random, t, place),
        13 => change_root(random, t, place),
        14 | 15 => change_label(random, t, place),
        _ => None,
    }
}

/// Puts a fault into a table's bytes that is meant for a refusal, 1 to 4.
pub fn header(random: &mut Random, bytes: &mut Vec<u8>, code: u32) {
    let put = |bytes: &mut Vec<u8>, at: usize, x: u32| bytes[at..at + 4].copy_from_slice(&x.to_le_bytes());
    let far = random.number() as u32;
    match code {
        1 => bytes.truncate(random.below(32) as usize),
        2 => {
            let (at, bad) = if random.below(2) == 0 {
                (0, pick(random, &[0, 2, 0x100, 0x101, 0xFFFF, (far as u16).max(2)]))
            } else {
                (2, pick(random, &[0, 65, 0x100, 0x108, 0xFFFF, (far as u16).max(65)]))
            };
            bytes[at..at + 2].copy_from_slice(&bad.to_le_bytes());
        }
        3 => {
            let (at, limit) = pick(random, &[(4, 256), (12, 2_048), (20, 1_024)]);
            let bad = pick(random, &[limit + 1, 0x1_0000, 0x2000_0000, u32::MAX, far.max(limit + 1)]);
            put(bytes, at, if at == 20 && random.below(3) == 0 { 0 } else { bad });
        }
        _ => match random.below(4) {
            0 if bytes.len() > 32 => bytes.truncate(bytes.len() - 1 - random.below(bytes.len() as u64 - 32) as usize),
            1 => bytes.resize(bytes.len() + 1 + random.below(20) as usize, random.below(2) as u8),
            _ => {
                let at = pick(random, &[8, 16, 24, 28]);
                let old = u32::from_le_bytes([bytes[at], bytes[at + 1], bytes[at + 2], bytes[at + 3]]);
                let step = pick(random, &[1, 8, 16, 0x1_0000, 0x8000_0000, u32::MAX, far.max(1)]);
                put(bytes, at, old.wrapping_add(step));
            }
        },
    }
}

/// Changes bytes of a table, one bit or byte at a time, wherever they are.
pub fn raw(random: &mut Random, bytes: &mut [u8]) {
    for _ in 0..1 + random.below(3) {
        let at = random.below(bytes.len() as u64) as usize;
        bytes[at] = match random.below(3) {
            0 => bytes[at] ^ 1 << random.below(8),
            1 => bytes[at].wrapping_add(if random.below(2) == 0 { 1 } else { 255 }),
            _ => random.number() as u8,
        };
    }
}

fn pick<T: Copy>(random: &mut Random, from: &[T]) -> T {
    from[random.below(from.len() as u64) as usize]
}

/// One of the places of a range that will do.
fn at(
    random: &mut Random,
    place: Place,
    range: std::ops::Range<usize>,
    will_do: impl Fn(usize) -> bool,
) -> Option<usize> {
    let places: Vec<usize> = range.filter(|&i| will_do(i)).collect();
    match place {
        Place::Lowest => places.first().copied(),
        Place::Highest => places.last().copied(),
        Place::Any => (!places.is_empty()).then(|| pick(random, &places)),
    }
}

fn bad_variable(random: &mut Random, v: Variable) -> Variable {
    let mut bad = v;
    let high = 65 + random.below(191) as u8;
    match random.below(6) {
        0 => bad.kind = pick(random, &[0, 3, 255]),
        1 => bad.label = pick(random, &[2, 255, 128]),
        2 => bad.width = if v.kind == 2 { pick(random, &[0, 1, 7, 9, 16, 64]) } else { pick(random, &[0, 65, high]) },
        3 => bad.address_width = if v.kind == 2 { pick(random, &[0, 65, high]) } else { pick(random, &[1, 8, high]) },
        4 => bad.role = pick(random, &[2, 255, 128]),
        _ => bad.zeros[random.below(3) as usize] = pick(random, &[1, 128, 255]),
    }
    bad
}

/// A number that isn't below `limit`: just so, far off, or with a low half that is.
fn too_high(random: &mut Random, limit: usize) -> u32 {
    let limit = limit as u32;
    let far = random.number() as u32;
    pick(random, &[limit, limit + 1, u32::MAX, 0x1_0000 + limit / 2, 0x8000_0000, far.max(limit)])
}

fn bad_expression(random: &mut Random, t: &Table, i: usize) -> Expression {
    let e = t.expressions[i];
    let mut bad = e;
    let states: Vec<u32> = (0..t.variables.len() as u32).filter(|&v| !t.variables[v as usize].is_let()).collect();
    // tries changes until one is a fault for the op
    loop {
        let high = 65 + random.below(191) as u8;
        let far = 1 + random.below(u32::MAX.into()) as u32;
        let some = pick(random, &[1, 2, far]);
        match random.below(12) {
            0 => bad.op = pick(random, &[0, 13, 255, e.op.wrapping_add(16)]),
            1 if !(5..=7).contains(&e.op) => bad.sub = pick(random, &[1, 2, 255]),
            1 => bad.sub = pick(random, &[0, [20, 3, 5][e.op as usize - 5], 255]),
            2 if matches!(e.op, 2 | 7) || (e.op == 9 && e.q == 0) => bad.p = pick(random, &[0, 65, high]),
            2 if matches!(e.op, 3 | 4) => bad.p = pick(random, &[0, 1, 7, 9, 12, 63, 65, 72, 128]),
            2 if e.op == 9 => bad.p = pick(random, &[0, 7, 9, 16]),
            2 if e.op != 11 => bad.p = pick(random, &[1, 8, high]),
            2 if e.q > 0 => bad.p = e.q - 1,
            2 if e.q < 192 => bad.p = e.q + 64,
            3 if matches!(e.op, 3 | 4) => bad.q = pick(random, &[2, 255, 128]),
            3 if e.op == 9 && e.p == 8 => bad.q = pick(random, &[65, high]),
            3 if e.op == 9 => bad.q = pick(random, &[1, 8, 64, high]),
            3 if e.op == 11 && e.p < 255 => bad.q = e.p + 1,
            3 if e.op == 11 => bad.q = e.p - 64,
            3 => bad.q = pick(random, &[1, 8, high]),
            4 if matches!(e.op, 1 | 8) => bad.a = too_high(random, t.variables.len()),
            4 if matches!(e.op, 2 | 9) => bad.a = some,
            4 => bad.a = too_high(random, i),
            5 if e.op == 8 && !states.is_empty() => bad.a = pick(random, &states),
            6 if matches!(e.op, 3 | 4 | 5 | 8 | 10 | 12) => bad.b = too_high(random, i),
            6 if e.op != 2 => bad.b = some,
            7 if matches!(e.op, 4 | 8 | 10) => bad.c = too_high(random, i),
            7 if e.op != 2 => bad.c = some,
            8 if e.op == 2 && (1..64).contains(&e.p) => {
                let value = 1 << (u64::from(e.p) + random.below(64 - u64::from(e.p)));
                bad = word(e.p, value | random.word(e.p.into()));
            }
            _ => continue,
        }
        return bad;
    }
}

fn bad_statement(random: &mut Random, t: &Table, i: usize) -> Statement {
    let s = t.statements[i];
    let mut bad = s;
    let lets: Vec<u32> = (0..t.variables.len() as u32).filter(|&v| t.variables[v as usize].is_let()).collect();
    let left = (t.statements.len() - i - 1) as u32;
    loop {
        let far = 1 + random.below(u32::MAX.into()) as u32;
        let some = pick(random, &[1, 2, far]);
        match random.below(10) {
            0 => bad.op = pick(random, &[0, 7, 255, s.op.wrapping_add(16)]),
            1 => bad.zeros[random.below(3) as usize] = pick(random, &[1, 128, 255]),
            2 if s.op == 1 => bad.a = too_high(random, t.variables.len()),
            2 if !matches!(s.op, 3 | 4) => bad.a = too_high(random, t.expressions.len()),
            3 if s.op == 1 && !lets.is_empty() => bad.a = pick(random, &lets),
            4 if s.op == 1 => bad.b = too_high(random, t.expressions.len()),
            4 if s.op <= 4 => bad.b = some,
            5 | 6 if s.op >= 5 => {
                bad.b = pick(random, &[0, left + 1, u32::MAX, u32::MAX - i as u32, some.max(left + 1)])
            }
            7 if s.op == 6 => bad.c = pick(random, &[left, left + 1, u32::MAX, 0u32.wrapping_sub(s.b), u32::MAX - s.b]),
            7 | 8 if s.op != 6 => bad.c = some,
            9 if s.op == 5 => bad.b = room(t, i) + 1,
            9 if s.op == 6 => bad.c = (room(t, i) + 1).saturating_sub(s.b),
            _ => continue,
        }
        return bad;
    }
}

/// Has a body end one statement behind the block around it, though not behind the table. Gives the body's statement.
pub fn overrun(random: &mut Random, t: &mut Table, place: Place) -> Option<u32> {
    let count = t.statements.len();
    let i = at(random, place, 0..count, |i| t.statements[i].op >= 5 && i as u32 + 1 + room(t, i) < count as u32)?;
    let more = room(t, i) + 1;
    let s = &mut t.statements[i];
    if s.op == 6 && random.below(2) == 0 {
        s.c = more - s.b;
    } else {
        (s.b, s.c) = (more, 0);
    }
    Some(i as u32)
}

/// How many statements stand behind one in the block around it.
fn room(t: &Table, i: usize) -> u32 {
    let mut ends = vec![t.statements.len(); t.statements.len()];
    for at in 0..i {
        let s = t.statements[at];
        let (then, other) = if s.op == 5 { (s.b, 0) } else { (s.b, s.c) };
        let mut start = at + 1;
        for length in [then, other].into_iter().filter(|_| s.op == 5 || s.op == 6) {
            let end = start.saturating_add(length as usize).min(ends[at]);
            ends[start.min(end)..end].fill(end);
            start = end;
        }
    }
    (ends[i] - i - 1) as u32
}

/// Has an expression or a statement use another expression than its own.
fn use_another(random: &mut Random, t: &mut Table, place: Place) -> Option<u32> {
    let count = t.expressions.len() as u64;
    if random.below(4) == 0 && count >= 2 {
        let i = at(random, place, 0..t.statements.len(), |i| t.statements[i].root().is_some())?;
        let root = root_field(&mut t.statements[i])?;
        *root = (u64::from(*root) + 1 + random.below(count - 1)) as u32 % count as u32;
        return Some(i as u32);
    }
    if random.below(3) == 0 && count < 2_048 {
        t.expressions.push(word(8, 1));
        return Some(count as u32);
    }
    let i = at(random, place, 2..t.expressions.len(), |i| !t.expressions[i].operands().is_empty())?;
    let mut fields = operand_fields(&mut t.expressions[i]);
    let which = random.below(fields.len() as u64) as usize;
    let other = 1 + random.below(i as u64 - 1) as u32;
    *fields[which] = fields[which].wrapping_add(other) % i as u32;
    Some(i as u32)
}

/// Wraps what a statement uses into negs until it is 65 deep or more, where the table has the room.
fn deepen(random: &mut Random, t: &mut Table, place: Place) -> Option<u32> {
    let i = at(random, place, 0..t.statements.len(), |i| t.statements[i].root().is_some())?;
    let more = 64 + random.below(3) as usize;
    if t.expressions.len() + more > 2_048 {
        return None;
    }
    let root = root_field(&mut t.statements[i])?;
    for _ in 0..more {
        t.expressions.push(unary(1, *root));
        *root = t.expressions.len() as u32 - 1;
    }
    Some(i as u32)
}

/// Puts statements that are nested too deep before or behind all others.
fn nest(random: &mut Random, t: &mut Table, place: Place) -> Option<u32> {
    let deepest = 33 + random.below(3) as u32;
    let mut expressions = t.expressions.clone();
    let tower = tower(random, deepest, &mut expressions);
    if expressions.len() > 2_048 || t.statements.len() + tower.len() > 1_024 {
        return None;
    }
    t.expressions = expressions;
    let start = if place == Place::Lowest { 0 } else { t.statements.len() };
    t.statements.splice(start..start, tower);
    Some(start as u32)
}

/// Has a var read a let variable, or a let bind the variable of a let around it.
fn leave_scope(random: &mut Random, t: &mut Table, place: Place) -> Option<u32> {
    let lets: Vec<u32> = (0..t.variables.len() as u32).filter(|&v| t.variables[v as usize].is_let()).collect();
    if random.below(2) == 0 {
        return hide_outer(random, t, place);
    }
    let i = at(random, place, 0..t.expressions.len(), |i| !lets.is_empty() && t.expressions[i].op == 1)?;
    t.expressions[i].a = pick(random, &lets);
    Some(i as u32)
}

/// Gives a let in the body of another the other's variable, and has what read its own read the new one, so that nothing
/// but this let is at fault.
fn hide_outer(random: &mut Random, t: &mut Table, place: Place) -> Option<u32> {
    let mut around = vec![None; t.expressions.len()];
    for (i, e) in t.expressions.iter().enumerate().rev() {
        for o in e.operands().into_iter().filter(|&o| (o as usize) < i) {
            around[o as usize] = if e.op == 8 && o == e.c { Some(e.a) } else { around[i] };
        }
    }
    let i = at(random, place, 0..t.expressions.len(), |i| t.expressions[i].op == 8 && around[i].is_some())?;
    let (old, new) = (t.expressions[i].a, around[i]?);
    t.expressions[i].a = new;
    let mut body = vec![t.expressions[i].c as usize];
    while let Some(n) = body.pop() {
        let e = t.expressions.get_mut(n)?;
        if e.op == 1 && e.a == old {
            e.a = new;
        }
        body.extend(e.operands().into_iter().map(|o| o as usize).filter(|&o| o < n));
    }
    Some(i as u32)
}

/// Puts another leaf in a leaf's place, or changes a width that a rule compares.
fn change_type(random: &mut Random, t: &mut Table, place: Place) -> Option<u32> {
    let leaves = random.below(3) > 0;
    let i = at(random, place, 0..t.expressions.len(), |i| {
        let op = t.expressions[i].op;
        if leaves {
            matches!(op, 1 | 2 | 9)
        } else {
            matches!(op, 3 | 4 | 7 | 11)
        }
    })?;
    let width = 1 + random.below(64) as u32;
    let e = &mut t.expressions[i];
    match e.op {
        3 | 4 => e.p = 8 * (1 + random.below(8) as u8),
        7 if random.below(2) == 0 => e.sub = 1 + random.below(4) as u8,
        7 => e.p = width as u8,
        11 => (e.p, e.q) = (width as u8 - 1, 0),
        _ if random.below(4) == 0 => *e = unknown(Type::Memory(width)),
        _ => *e = word(width as u8, random.word(width)),
    }
    Some(i as u32)
}

/// Moves to another variable, jumps where was a move, or puts another leaf in the place of what a statement uses.
fn change_root(random: &mut Random, t: &mut Table, place: Place) -> Option<u32> {
    let states: Vec<u32> = (0..t.variables.len() as u32).filter(|&v| !t.variables[v as usize].is_let()).collect();
    let i = at(random, place, 0..t.statements.len(), |i| t.statements[i].root().is_some())?;
    let root = t.statements[i].root()? as usize;
    let width = 1 + random.below(64) as u32;
    if root >= t.expressions.len() {
        return None;
    }
    if t.statements[i].op == 1 && !states.is_empty() && random.below(2) == 0 {
        t.statements[i].a = pick(random, &states);
    } else if t.expressions[root].operands().is_empty() {
        t.expressions[root] = pick(random, &[unknown(Type::Immediate(width)), unknown(Type::Memory(width))]);
    } else {
        t.statements[i] = Statement { op: 2, a: root as u32, ..Default::default() };
    }
    Some(i as u32)
}

/// Gives a variable the other label.
fn change_label(random: &mut Random, t: &mut Table, place: Place) -> Option<u32> {
    let i = at(random, place, 0..t.variables.len(), |_| true)?;
    t.variables[i].label = 1 - t.variables[i].label.min(1);
    Some(i as u32)
}
