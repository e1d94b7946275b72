//! bilrun COUNT COMMAND [ARGS]: feeds COUNT tables, good and damaged, one by one to bilrun's standard input, and compares
//! what it prints with the text made from the implementation here.
//!
//! Prints how often each code and each form of a variable's line was met and, last, one line that sums up. Ends with 1 at
//! any difference, and where one of these isn't met.

use std::collections::BTreeMap;
use std::fmt::Write as _;
use std::io::{Read, Write as _};
use std::process::{exit, Command, Stdio};
use tests::cases::cases;
use tests::programs::{program, shape};
use tests::random::Random;
use tests::running::{run, Start};
use tests::tables::{statement, table, var, variable, word};
use tests::verdicts::{accepted, seal, Expression, Type};

/// What bilrun looks at of its input, its log's room and its budget.
const INPUT: usize = 65_536;
const ENTRIES: usize = 2_048;
const BUDGET: u32 = 10_000;

/// What must be met: verdicts 0 to 13, seals 0, 14 and 15, what a run from nothing can end with, and each form of a line.
const WANTED: [&str; 26] = [
    "verdict 0",
    "verdict 1",
    "verdict 2",
    "verdict 3",
    "verdict 4",
    "verdict 5",
    "verdict 6",
    "verdict 7",
    "verdict 8",
    "verdict 9",
    "verdict 10",
    "verdict 11",
    "verdict 12",
    "verdict 13",
    "seal 0",
    "seal 14",
    "seal 15",
    "run 0",
    "run 32",
    "run 33",
    "run 34",
    "run 35",
    "var absent",
    "var word",
    "var unknown",
    "var memory",
];

/// What bilrun must print.
fn text(input: &[u8]) -> String {
    let bytes = &input[..input.len().min(INPUT)];
    let t = match accepted(bytes) {
        Err((code, place)) => return format!("verdict {code} {place}\n"),
        Ok(t) => t,
    };
    let (code, place) = seal(bytes);
    let mut text = format!("verdict 0 0\nseal {code} {place}\n");
    let (end, _) = run(&Start {
        table: bytes.to_vec(),
        state: vec![0; 2 * t.variables.len()],
        log: vec![0; 4 * ENTRIES],
        count: 0,
        next: 0,
        budget: BUDGET,
    });
    let [code, place, ticks, count, next] = end.numbers;
    writeln!(text, "run {code} {place} {ticks} {count} {next}").unwrap();
    for (x, v) in t.variables.iter().enumerate().filter(|(_, v)| v.role == 0) {
        let said = match (v.kind, end.state[2 * x], end.state[2 * x + 1]) {
            (_, 0, _) => "absent".to_string(),
            (1, 1, n) => format!("word {n}"),
            (_, 2, _) => "unknown".to_string(),
            (_, _, n) => format!("memory {n}"),
        };
        writeln!(text, "var {x} {said}").unwrap();
    }
    text
}

/// What a command prints on an input. It may end before it has read all of it.
fn ask(command: &[String], input: Vec<u8>) -> Result<String, String> {
    let mut child = Command::new(&command[0])
        .args(&command[1..])
        .stdin(Stdio::piped())
        .stdout(Stdio::piped())
        .spawn()
        .map_err(|e| format!("cannot run {}: {e}", command[0]))?;
    let mut to = child.stdin.take().expect("its standard input is a pipe");
    let writer = std::thread::spawn(move || drop(to.write_all(&input)));
    let mut said = String::new();
    let read = child.stdout.take().expect("its standard output is a pipe").read_to_string(&mut said);
    writer.join().expect("the writer doesn't panic");
    let status = child.wait().map_err(|e| e.to_string())?;
    read.map_err(|e| format!("what it prints can't be read: {e}"))?;
    if status.success() {
        Ok(said)
    } else {
        Err(format!("bilrun ended with {status}"))
    }
}

/// A loop that stores 8 bytes a turn: it fills the log before the budget ends.
fn full() -> Vec<u8> {
    let memory = variable(Type::Memory(16), false, false);
    let stores = Expression { op: 4, p: 64, a: 1, b: 2, c: 3, ..Default::default() };
    let expressions = vec![word(1, 1), var(0), word(16, 0xFFFE), word(64, 0x0123_4567_89AB_CDEF), stores];
    table(16, vec![memory], expressions, vec![statement(5, 0, 1, 0), statement(1, 0, 4, 0)]).bytes()
}

/// The inputs: a few that are planned, programs that run from nothing, and good and damaged tables of every sort.
fn inputs(count: usize) -> Vec<Vec<u8>> {
    let mut random = Random::new(6);
    let first = tests::tables::example().bytes();
    let behind = |more: usize| [first.clone(), vec![7; more]].concat();
    let mut all = vec![Vec::new(), first.clone(), full(), behind(1), behind(INPUT), behind(INPUT - first.len())];
    let made = cases();
    let step = (made.len() / (count / 2).max(1)).max(1);
    all.extend(made.into_iter().step_by(step).map(|m| m.bytes));
    while all.len() < count {
        let clean = random.below(2) == 0;
        let shape = shape(&mut random, clean);
        all.push(program(&mut random, &shape).bytes());
    }
    all
}

/// Notes what a text has.
fn note(text: &str, met: &mut BTreeMap<String, usize>) {
    for line in text.lines() {
        let words: Vec<&str> = line.split(' ').collect();
        let what = if words[0] == "var" { words[2] } else { words[1] };
        *met.entry(format!("{} {what}", words[0])).or_default() += 1;
    }
}

fn main_or(words: &[String]) -> Result<(), String> {
    let (count, command) = words.split_first().ok_or("usage: bilrun COUNT COMMAND [ARGS]")?;
    let count: usize = count.parse().map_err(|_| "COUNT is no number".to_string())?;
    let mut met = BTreeMap::new();
    let all = inputs(count);
    for (i, input) in all.iter().enumerate() {
        let wanted = text(input);
        let said = ask(command, input.clone())?;
        if said != wanted {
            return Err(format!("input {i} of {} bytes: printed\n{said}and not\n{wanted}", input.len()));
        }
        note(&said, &mut met);
    }
    for (what, often) in &met {
        println!("{what:12} {often}");
    }
    if let Some(missing) = WANTED.iter().find(|w| !met.contains_key(**w)) {
        return Err(format!("'{missing}' isn't met"));
    }
    println!("{} tables through bilrun's standard input and output, none different", all.len());
    Ok(())
}

fn main() {
    let words: Vec<String> = std::env::args().skip(1).collect();
    if let Err(why) = main_or(&words) {
        println!("{why}");
        exit(1);
    }
}
