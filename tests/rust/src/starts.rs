//! Starts of runs: random ones that are accepted, ones with a fault for each of refusals 16 to 18, and pairs that agree
//! in the value of each open variable.

use crate::programs::{address, value};
use crate::random::Random;
use crate::running::{entry, run, Start};
use crate::verdicts::{Table, Type, Variable};

/// The most ticks that a table is tried with, and the most entries that it may append then.
const TICKS: u32 = 300;
const APPENDED: usize = 4_000;

/// The most entries of room that a start mostly has beyond its count.
const ROOM: u64 = 150;

/// The number that the driver puts at a log's place where none is sent.
pub fn filler(i: usize) -> u64 {
    (i as u64 + 1).wrapping_mul(0x9E37_79B9_7F4A_7C15)
}

fn pick<T: Copy>(random: &mut Random, from: &[T]) -> T {
    from[random.below(from.len() as u64) as usize]
}

/// A random accepted start of an accepted table, with little room beyond the log count.
pub fn start(random: &mut Random, t: &Table) -> Start {
    let most = pick(random, &[1, 4, 12, 40]);
    let count = random.below(most);
    let mut log = Vec::new();
    for _ in 0..count {
        let entry = any_entry(random, t, &log);
        log.extend(entry);
    }
    let odd = pick(random, &[2, 8, 1_000_000]);
    let state = t.variables.iter().flat_map(|v| pair(random, v, &log, odd)).collect();
    // what lies beyond the count need not be entries
    for _ in 0..4 * random.below(4) {
        log.push(if random.below(2) == 0 { random.number() } else { random.below(3) });
    }
    let width = u32::from(t.address_width);
    let next = if random.below(2) == 0 { random.word(width) } else { value(random, width) };
    Start { table: t.bytes(), state, log, count, next, budget: TICKS }
}

/// An entry that may follow a log's: of a width that the table has, on a chain of that width or from 0.
fn any_entry(random: &mut Random, t: &Table, log: &[u64]) -> [u64; 4] {
    let mut widths: Vec<u64> = t.variables.iter().filter(|v| v.kind == 2).map(|v| v.address_width.into()).collect();
    if widths.is_empty() || random.below(10) == 0 {
        widths.push(1 + random.below(64));
    }
    let width = pick(random, &widths);
    let chains = of_width(log, width);
    let previous = match random.below(8) {
        0 => 0,
        1 | 2 if !chains.is_empty() => pick(random, &chains),
        _ => chains.last().copied().unwrap_or(0),
    };
    let byte = if random.below(8) == 0 { 256 } else { random.below(256) };
    [previous, width, address(random, width as u32), byte]
}

/// The entries of an address width.
fn of_width(log: &[u64], width: u64) -> Vec<u64> {
    (1..=log.len() as u64 / 4).filter(|&n| entry(log, n)[1] == width).collect()
}

/// A pair for a variable: absent or unknown one time in `odd`, else a word or a head into the log where there is one.
fn pair(random: &mut Random, v: &Variable, log: &[u64], odd: u64) -> [u64; 2] {
    if v.is_let() {
        return [0, 0];
    }
    let none = pick(random, &[[0, 0], [2, 0]]);
    if random.below(odd) == 0 {
        return none;
    }
    match v.of_type() {
        Type::Immediate(width) if random.below(3) == 0 => [1, address(random, width)],
        Type::Immediate(width) => [1, value(random, width)],
        Type::Memory(width) => match of_width(log, width.into()).as_slice() {
            [] => none,
            heads => [3, if random.below(2) == 0 { pick(random, heads) } else { heads[heads.len() - 1] }],
        },
    }
}

/// A start with another room; what is new is as the driver fills it.
pub fn with_room(start: &Start, entries: u64) -> Start {
    let mut start = start.clone();
    start.log.truncate(4 * entries as usize);
    start.log.extend((start.log.len()..4 * entries as usize).map(filler));
    start
}

/// What a start comes to with more room than it needs: its ticks, the entries that it appends, and whether it is done or
/// stops by itself within them.
fn measured(start: &Start) -> (u64, u64, bool) {
    let (end, _) = run(&with_room(start, start.count + APPENDED as u64));
    let [code, _, ticks, count, _] = end.numbers;
    (ticks, count - start.count, code < 34)
}

/// Starts from one: with all the budget and room that it needs or more, just enough and too little of either or both;
/// where `every`, with every budget and every room up to what it needs, if these are few.
pub fn varied(random: &mut Random, start: &Start, every: bool) -> Vec<Start> {
    let (ticks, appended, ends) = measured(start);
    let count = start.count;
    let room = count + appended.min(ROOM) + random.below(3);
    let large = if ends { pick(random, &[10_000, u32::MAX, ticks as u32, ticks as u32 + 1]) } else { ticks as u32 };
    let with = |room: u64, budget: u32| Start { budget, ..with_room(start, room) };
    let mut starts = vec![with(room, large)];
    if every {
        starts.extend((0..=ticks.min(40) as u32).map(|budget| with(room, budget)));
        starts.extend((0..=appended.min(40)).map(|more| with(count + more, large)));
        return starts;
    }
    for _ in 0..3 {
        let most = pick(random, &[ticks, ticks.min(6)]);
        starts.push(with(room, random.below(most + 1) as u32));
    }
    if appended > 0 {
        for _ in 0..2 {
            starts.push(with(count + random.below(appended.min(ROOM)), large));
        }
        starts.push(with(count + random.below(appended.min(ROOM)), random.below(ticks + 1) as u32));
    }
    starts
}

/// Another start that agrees with one in the value of each open variable, in the count and in the room. What is sealed
/// is made anew, and the entries that open memories reach may stand elsewhere in the log.
pub fn sibling(random: &mut Random, t: &Table, start: &Start) -> Start {
    let reached = reached(t, start);
    let mut places: Vec<u64> = reached.clone();
    let mut order: Vec<u64> = reached.clone();
    if random.below(2) == 0 {
        places = some_of(random, start.count, reached.len());
        order = any_order(random, &start.log, &reached);
    }
    let mut new = vec![0; start.count as usize + 1];
    let mut log = Vec::new();
    let mut moved = order.into_iter();
    for place in 1..=start.count {
        if places.contains(&place) {
            let old = moved.next().expect("there are as many places as entries that are reached");
            let [previous, width, address, byte] = entry(&start.log, old);
            log.extend([new[previous as usize], width, address, byte]);
            new[old as usize] = place;
        } else {
            let entry = any_entry(random, t, &log);
            log.extend(entry);
        }
    }
    let mut state = Vec::new();
    for (v, old) in t.variables.iter().zip(start.state.chunks(2)) {
        state.extend(match (old[0], v.is_sealed()) {
            (_, true) => pair(random, v, &log, 6),
            (3, false) => [3, new[old[1] as usize]],
            (0 | 2, false) if !v.is_let() => pick(random, &[[0, 0], [2, 0]]),
            _ => [old[0], old[1]],
        });
    }
    log.extend((log.len()..start.log.len()).map(filler));
    Start { state, log, ..start.clone() }
}

/// The entries that open memories reach, lowest first.
fn reached(t: &Table, start: &Start) -> Vec<u64> {
    let mut reached = Vec::new();
    for (v, pair) in t.variables.iter().zip(start.state.chunks(2)) {
        let mut at = if pair[0] == 3 && !v.is_sealed() { pair[1] } else { 0 };
        while at != 0 {
            reached.push(at);
            at = entry(&start.log, at)[0];
        }
    }
    reached.sort();
    reached.dedup();
    reached
}

/// So many of the numbers from 1 to `last`, lowest first.
fn some_of(random: &mut Random, last: u64, many: usize) -> Vec<u64> {
    let mut all: Vec<u64> = (1..=last).collect();
    while all.len() > many {
        all.remove(random.below(all.len() as u64) as usize);
    }
    all
}

/// Entries in any order in which an entry stands behind its previous one.
fn any_order(random: &mut Random, log: &[u64], entries: &[u64]) -> Vec<u64> {
    let mut order: Vec<u64> = Vec::new();
    while order.len() < entries.len() {
        let ready: Vec<u64> = entries
            .iter()
            .copied()
            .filter(|n| !order.contains(n) && (entry(log, *n)[0] == 0 || order.contains(&entry(log, *n)[0])))
            .collect();
        order.push(pick(random, &ready));
    }
    order
}

/// Where in a list a fault goes.
#[derive(Clone, Copy, Debug, PartialEq, Eq)]
pub enum At {
    First,
    Last,
    Any,
}

fn at(random: &mut Random, at: At, places: u64) -> u64 {
    match at {
        At::First => 0,
        At::Last => places - 1,
        At::Any => random.below(places),
    }
}

/// A fault's name, and what a start with no other fault is answered.
pub type Fault = (&'static str, (u64, u64));

/// The names of all faults.
pub const FAULTS: [&str; 31] = [
    "16: a number of the state is missing",
    "16: a number too many in the state",
    "16: a pair of the state is missing",
    "16: a pair too many in the state",
    "16: the log isn't a multiple of 4",
    "16: the count is one over its room",
    "16: the count is far over its room",
    "16: the next address is one over",
    "16: the next address is far over",
    "17: previous is the entry itself",
    "17: previous is higher",
    "17: previous is far off",
    "17: width 0",
    "17: width 65",
    "17: a width far off",
    "17: another width than the previous entry's",
    "17: an address one too high",
    "17: an address far too high",
    "17: byte 257",
    "17: a byte far off",
    "18: absent with a number",
    "18: a word one too long",
    "18: a word far too long",
    "18: a word for a memory",
    "18: unknown with a number",
    "18: a head for an immediate",
    "18: head 0",
    "18: a head over the count",
    "18: a head of another width",
    "18: a kind not listed",
    "18: a let variable that isn't absent",
];

/// Puts the fault of a name into a start of a table, where it has a place for it. Other faults may be there already.
pub fn spoil(random: &mut Random, t: &Table, start: &mut Start, name: &'static str, place: At) -> Option<Fault> {
    let index = FAULTS.iter().position(|&n| n == name).expect("a fault has a name");
    let answer = match index {
        0..=8 => (16, spoil_lengths(random, t, start, index)?),
        9..=19 => (17, spoil_entry(random, start, index, place)?),
        _ => (18, spoil_pair(random, t, start, index, place)?),
    };
    Some((name, answer))
}

fn spoil_lengths(random: &mut Random, t: &Table, start: &mut Start, index: usize) -> Option<u64> {
    let room = start.log.len() as u64 / 4;
    let width = t.address_width;
    let far = random.number();
    match index {
        0 | 2 => {
            let left = start.state.len().checked_sub(1 + index / 2)?;
            start.state.truncate(left);
        }
        1 => start.state.push(0),
        3 => start.state.extend([0, 0]),
        4 => start.log.extend((0..1 + far % 3).map(|i| i + far)),
        5 => start.count = room + 1,
        6 => start.count = pick(random, &[u64::MAX, 1 << 32, 1 << 62, 1 << 63, far.max(1 << 32)]),
        7 => start.next = 1u64.checked_shl(width.into()).filter(|_| width < 64)?,
        _ if width == 64 => return None,
        _ => start.next = pick(random, &[u64::MAX, 1 << 63, far | 1 << width]),
    }
    Some([0, 0, 0, 0, 1, 2, 2, 3, 3][index])
}

fn spoil_entry(random: &mut Random, start: &mut Start, index: usize, place: At) -> Option<u64> {
    let count = start.count.min(start.log.len() as u64 / 4);
    if count == 0 {
        return None;
    }
    let number = 1 + at(random, place, count);
    let [previous, width, address, byte] = entry(&start.log, number);
    let far = random.number() | 1 << 32;
    let mut bad = [previous, width, address, byte];
    match index {
        9 => bad[0] = number,
        10 => bad[0] = number + 1 + random.below(3),
        11 => bad[0] = pick(random, &[u64::MAX, 1 << 32 | previous, 1 << 62 | previous, far]),
        12 => bad[1] = 0,
        13 => bad[1] = 65,
        14 => bad[1] = pick(random, &[u64::MAX, 1 << 32 | width, 256 + width, far]),
        15 if (1..number).contains(&previous) => {
            bad[1] = 1 + width % 64;
            bad[2] = 0;
        }
        16 | 17 if (1..64).contains(&width) => {
            bad[2] = if index == 16 { 1 << width } else { pick(random, &[u64::MAX, 1 << 63, far | 1 << width]) }
        }
        18 => bad[3] = 257,
        19 => bad[3] = pick(random, &[u64::MAX, 1 << 32 | byte, 512, far]),
        _ => return None,
    }
    start.log[4 * number as usize - 4..4 * number as usize].copy_from_slice(&bad);
    Some(number)
}

fn spoil_pair(random: &mut Random, t: &Table, start: &mut Start, index: usize, place: At) -> Option<u64> {
    let count = start.count;
    let known = count.min(start.log.len() as u64 / 4);
    let fits: Vec<usize> = (0..t.variables.len().min(start.state.len() / 2))
        .filter(|&i| {
            let v = t.variables[i];
            match index {
                20 | 24 | 29 => true,
                21 | 22 => v.kind == 1 && v.width < 64 && !v.is_let(),
                25 => v.kind == 1,
                30 => v.is_let(),
                _ => v.kind == 2 && !v.is_let(),
            }
        })
        .collect();
    if fits.is_empty() {
        return None;
    }
    let i = fits[at(random, place, fits.len() as u64) as usize];
    let v = t.variables[i];
    let far = random.number() | 1 << 32;
    let pair = match index {
        20 => [0, pick(random, &[1, 1 << 32, u64::MAX, far])],
        21 => [1, 1 << v.width],
        22 => [1, pick(random, &[u64::MAX, 1 << 63, far | 1 << v.width])],
        23 => [1, random.below(known + 2)],
        24 => [2, pick(random, &[1, 1 << 32, u64::MAX, far])],
        25 => [3, random.below(known + 1) + 1],
        26 => [3, 0],
        27 => [3, pick(random, &[count.wrapping_add(1).max(1), u64::MAX, 1 << 32 | 1, 1 << 62 | 1])],
        28 => {
            let other = (1..=known).find(|&n| entry(&start.log, n)[1] != u64::from(v.address_width))?;
            [3, other]
        }
        29 => [pick(random, &[4, 5, 1 << 32, 1 << 32 | 1, u64::MAX]), random.below(2)],
        _ => pick(random, &[[1, 0], [1, 1], [2, 0], [3, 1], [0, 1]]),
    };
    start.state[2 * i..2 * i + 2].copy_from_slice(&pair);
    Some(i as u64)
}
