//! runs DRIVER [ARGS]: asks a driver over bil.h to run tables, and compares all that a run gives back: the five numbers,
//! each number of the state and each number of the log.
//!
//! Then it tries the seal's promise on the driver's answers: on a clean table two starts that agree in the value of each
//! open variable end with the same numbers and the same values of open variables. On tables that aren't clean some such
//! pair must differ, or the trial would say nothing.
//!
//! Prints how often each code, each case of a rule and each fault was met and, last, one line that sums up. Ends with 1
//! at any difference, where one of these isn't met, and where a start isn't of the sort that it was made for or a wrong
//! answer that it makes itself isn't noticed.

use std::collections::BTreeMap;
use std::process::exit;
use tests::damage::{self, Place};
use tests::pipe;
use tests::programs::{program, shape};
use tests::random::Random;
use tests::running::{run, stores, Met, Start, CASES, ENTRIES};
use tests::starts::{filler, sibling, spoil, start, varied, with_room, At, FAULTS};
use tests::tables::{
    accepted, binary, chains, every_op, example, lets, nested, statement, table, tower, var, variable, word, Shape,
    LARGEST,
};
use tests::verdicts::{seal, Expression, Table, Type, Variable};
use tests::words::NAMES;

/// How many runs at least must be compared, and how many pairs.
const RUNS: usize = 100_000;
const PAIRS: usize = 10_000;

/// How many tables are made of each sort.
const PROGRAMS: usize = 9_000;
const SWEPT: usize = 700;
const OTHERS: usize = 2_500;
const FAULTS_OF_A_SORT: usize = 20;
const MIXED_FAULTS: usize = 6_000;
const OUTS: usize = 1_500;
const CLEAN_PAIRS: usize = 12_000;
const LEAKY_PAIRS: usize = 3_000;

/// The driver is asked for so many runs, or so many bytes, at a time.
const AT_ONCE: usize = 4_000;
const BYTES_AT_ONCE: usize = 32 << 20;

/// The codes that a run can give back. No accepted table can come to 36: an expression that is at most 64 deep has at
/// most 63 lets in each other's bodies.
const CODES: [u64; 21] = [0, 1, 2, 3, 4, 5, 6, 7, 8, 9, 10, 11, 12, 13, 16, 17, 18, 32, 33, 34, 35];

/// A start, the length of the slice for the five numbers, and the code and place that it was made for, where known.
struct Case {
    start: Start,
    out: usize,
    made: Option<(u64, u64)>,
}

/// What the driver answered.
struct Answer {
    returned: u64,
    hurt: u64,
    out: Vec<u64>,
    state: Vec<u64>,
    log: Vec<u64>,
}

#[derive(Default)]
struct Tally {
    runs: usize,
    wrong: usize,
    made_wrong: usize,
    codes: BTreeMap<u64, (usize, u64, u64)>,
    met: Met,
    faults: BTreeMap<&'static str, usize>,
    most_ticks: u64,
    most_entries: u64,
}

fn plain(start: Start) -> Case {
    Case { start, out: 5, made: None }
}

fn put(bytes: &mut Vec<u8>, numbers: impl IntoIterator<Item = u64>) {
    numbers.into_iter().for_each(|n| bytes.extend(n.to_le_bytes()));
}

/// The bytes of a request. The log's numbers at its end that are as the driver fills them aren't sent.
fn request(case: &Case, bytes: &mut Vec<u8>) {
    let Start { table, state, log, count, next, budget } = &case.start;
    let kept = log.iter().enumerate().rev().take_while(|&(i, &x)| x == filler(i)).count();
    let sent = log.len() - kept;
    let lengths = [table.len(), state.len(), log.len(), sent, case.out].map(|n| n as u64);
    put(bytes, lengths.into_iter().chain([*count, *next, u64::from(*budget)]));
    bytes.extend(table);
    put(bytes, state.iter().chain(&log[..sent]).copied());
}

/// The bytes that the driver must answer, and what the run met.
fn expected(case: &Case, tally: &mut Tally) -> Vec<u8> {
    let mut bytes = Vec::new();
    if case.out != 5 {
        put(&mut bytes, [0, 0].into_iter().chain((0..case.out).map(filler)));
        put(&mut bytes, case.start.state.iter().chain(&case.start.log).copied());
        return bytes;
    }
    let (end, met) = run(&case.start);
    let [code, place, ticks, count, _] = end.numbers;
    tally.made_wrong += usize::from(case.made.map_or(false, |made| made != (code, place)));
    let (times, low, high) = tally.codes.entry(code).or_insert((0, place, place));
    (*times, *low, *high) = (*times + 1, place.min(*low), place.max(*high));
    for (case, times) in met {
        *tally.met.entry(case).or_insert(0) += times;
    }
    tally.most_ticks = tally.most_ticks.max(ticks);
    tally.most_entries = tally.most_entries.max(if code >= 32 || code == 0 { count } else { 0 });
    put(&mut bytes, [1, 0].into_iter().chain(end.numbers));
    put(&mut bytes, end.state.into_iter().chain(end.log));
    bytes
}

fn numbers(bytes: &[u8]) -> Vec<u64> {
    bytes.chunks(8).map(|b| u64::from_le_bytes(b.try_into().expect("eight bytes"))).collect()
}

fn read(case: &Case, bytes: &[u8]) -> Answer {
    let all = numbers(bytes);
    let (out, rest) = all[2..].split_at(case.out);
    let (state, log) = rest.split_at(case.start.state.len());
    Answer { returned: all[0], hurt: all[1], out: out.to_vec(), state: state.to_vec(), log: log.to_vec() }
}

/// The cases at which the driver's bytes aren't the expected ones.
fn differences(expected: &[Vec<u8>], given: &[u8]) -> Vec<usize> {
    let mut from = 0;
    let mut wrong = Vec::new();
    for (i, e) in expected.iter().enumerate() {
        if given[from..from + e.len()] != e[..] {
            wrong.push(i);
        }
        from += e.len();
    }
    wrong
}

/// Makes a wrong answer, one bit of one answer, and sees that it is noticed, where it is and nowhere else.
fn control(expected: &[Vec<u8>], given: &[u8], random: &mut Random) -> Result<usize, String> {
    let mut wrong = given.to_vec();
    for _ in 0..5 {
        let place = random.below(expected.len() as u64) as usize;
        let from: usize = expected[..place].iter().map(Vec::len).sum();
        let at = from + random.below(expected[place].len() as u64) as usize;
        let bit = 1 << random.below(8);
        wrong[at] ^= bit;
        if differences(expected, &wrong) != [place] {
            return Err(format!("a wrong answer made at run {} isn't noticed as it should be", place));
        }
        wrong[at] ^= bit;
    }
    Ok(5)
}

/// What talks to the driver and counts.
struct Asker<'a> {
    command: &'a [String],
    random: Random,
    tally: Tally,
    noticed: usize,
}

impl Asker<'_> {
    /// Runs cases and compares them. Gives the driver's answers.
    fn ask(&mut self, cases: &[Case]) -> Result<Vec<Answer>, String> {
        let mut answers = Vec::new();
        let mut from = 0;
        while from < cases.len() {
            let mut bytes = Vec::new();
            let mut to = from;
            while to < cases.len() && to - from < AT_ONCE && bytes.len() < BYTES_AT_ONCE {
                request(&cases[to], &mut bytes);
                to += 1;
            }
            answers.extend(self.ask_some(&cases[from..to], bytes)?);
            from = to;
        }
        Ok(answers)
    }

    fn ask_some(&mut self, cases: &[Case], bytes: Vec<u8>) -> Result<Vec<Answer>, String> {
        let expected: Vec<Vec<u8>> = cases.iter().map(|case| expected(case, &mut self.tally)).collect();
        let given = pipe::ask(self.command, bytes)?;
        if given.len() != expected.iter().map(Vec::len).sum() {
            return Err(format!("{} runs got {} bytes of answers", cases.len(), given.len()));
        }
        let wrong = differences(&expected, &given);
        let mut at = 0;
        let mut answers = Vec::new();
        for (i, case) in cases.iter().enumerate() {
            let answer = read(case, &given[at..at + expected[i].len()]);
            if wrong.contains(&i) && self.tally.wrong < 20 {
                self.tally.wrong += 1;
                show(case, &read(case, &expected[i]), &answer);
            }
            at += expected[i].len();
            answers.push(answer);
        }
        self.tally.runs += cases.len();
        if !wrong.is_empty() {
            return Err(format!("{} of {} runs differ, asked after {}", wrong.len(), cases.len(), self.tally.runs));
        }
        self.noticed += control(&expected, &given, &mut self.random)?;
        Ok(answers)
    }
}

/// Prints a run that differs.
fn show(case: &Case, expected: &Answer, given: &Answer) {
    let Start { table, state, log, count, next, budget } = &case.start;
    println!("count {} next {} budget {} room {} out {}", count, next, budget, log.len() / 4, case.out);
    println!("  expected {} {} {:?}", expected.returned, expected.hurt, expected.out);
    println!("  given    {} {} {:?}", given.returned, given.hurt, given.out);
    let state_at = (0..state.len()).find(|&i| expected.state[i] != given.state[i]);
    let log_at = (0..log.len()).find(|&i| expected.log[i] != given.log[i]);
    println!("  first differences: state {:?}, log {:?}", state_at, log_at);
    println!("  state {:?}, log {:?}", state, &log[..log.len().min(40)]);
    let hex: String = table.iter().take(1_600).map(|b| format!("{:02x}", b)).collect();
    println!("  table {}", hex);
}

/// Random tables that get far, each with a start and what is made from it.
fn programs(random: &mut Random, every: bool) -> Vec<Case> {
    let clean = random.below(2) == 0;
    let shape = shape(random, clean);
    let t = program(random, &shape);
    let start = start(random, &t);
    varied(random, &start, every).into_iter().map(plain).collect()
}

/// Tables of the sort that verdicts are asked of.
fn others(random: &mut Random) -> Vec<Case> {
    let shape = Shape {
        variables: 1 + random.below(12) as usize,
        expressions: random.below(60) as usize,
        statements: 1 + random.below(15) as usize,
        depth: 2 + random.below(9) as u32,
        nesting: 1 + random.below(8) as u32,
        clean: random.below(2) == 0,
    };
    let t = accepted(random, &shape);
    let start = start(random, &t);
    varied(random, &start, false).into_iter().map(plain).collect()
}

/// Tables made to a plan: deep expressions, up to 63 bindings in force, statements nested 32 deep, the largest table.
fn planned(random: &mut Random) -> Vec<Case> {
    let mut tables = vec![example(), every_op(), chains(64, 1), chains(63, 3)];
    tables.extend((2..=64).map(|depth| lets(depth, 1)));
    for nesting in [1, 2, 31, 32] {
        tables.extend([nested(5, false, nesting), nested(6, false, nesting), nested(6, true, nesting)]);
    }
    for _ in 0..40 {
        let mut expressions = vec![];
        let statements = tower(random, 32, &mut expressions);
        tables.push(table(8, vec![], expressions, statements));
    }
    tables.extend((0..4).map(|_| accepted(random, &LARGEST)));
    tables
        .iter()
        .flat_map(|t| {
            let start = start(random, t);
            varied(random, &start, true)
        })
        .map(plain)
        .collect()
}

/// Logs at the most entries that there may be and over, empty and nearly full.
fn large_logs(random: &mut Random) -> Vec<Case> {
    let mut cases = Vec::new();
    for i in 0..8 {
        let shape = shape(random, i % 2 == 0);
        let t = program(random, &shape);
        let start = start(random, &t);
        let budget = random.below(300) as u32;
        let whole = Start { budget, ..with_room(&start, ENTRIES as u64) };
        let over = with_room(&start, ENTRIES as u64 + 1 + random.below(2));
        cases.push(Case { made: Some((16, 1)), ..plain(over) });
        cases.push(plain(with_room(&start, 2_048)));
        if i < 3 {
            cases.push(plain(filled(&whole, ENTRIES as u64 - random.below(20))));
        }
        cases.push(plain(whole));
    }
    cases
}

/// Runs of many ticks: one that counts down from 60,000, and one that stores until the largest log is full.
fn long() -> Vec<Case> {
    let counts = vec![var(0), word(16, 0), binary(15, 0, 1), var(0), word(16, 1), binary(2, 3, 4)];
    let x = variable(Type::Immediate(16), false, false);
    let t = table(8, vec![x], counts, vec![statement(5, 2, 1, 0), statement(1, 0, 5, 0)]);
    let down = Start { table: t.bytes(), state: vec![1, 60_000], log: vec![], count: 0, next: 0, budget: u32::MAX };
    let budgets = [120_000, 120_001, 120_002, u32::MAX];
    let made = |budget| if budget == 120_000 { (35, 0) } else { (0, 0) };
    let mut cases: Vec<Case> =
        budgets.map(|b| Case { made: Some(made(b)), ..plain(Start { budget: b, ..down.clone() }) }).into();

    let store = Expression { op: 4, p: 64, a: 1, b: 2, c: 3, ..Default::default() };
    let stores = vec![word(1, 1), var(0), var(1), var(1), store, var(1), word(64, 8), binary(1, 5, 6)];
    let variables = vec![variable(Type::Memory(64), false, false), variable(Type::Immediate(64), false, false)];
    let t = table(8, variables, stores, vec![statement(5, 0, 2, 0), statement(1, 0, 4, 0), statement(1, 1, 7, 0)]);
    let log = (0..4 * ENTRIES).map(filler).collect();
    let fills = Start { table: t.bytes(), state: vec![0, 0, 1, 0], log, ..down };
    cases.push(Case { made: Some((34, 1)), ..plain(fills) });
    cases
}

/// A start with more entries, up to a count: each is on the one before it, and of its width.
fn filled(start: &Start, count: u64) -> Start {
    let mut start = start.clone();
    for n in start.count + 1..=count {
        let at = 4 * (n as usize - 1);
        let width = if n == 1 { 8 } else { start.log[at - 3] };
        let previous = if n == 1 { 0 } else { n - 1 };
        start.log[at..at + 4].copy_from_slice(&[previous, width, n % 2, n % 257]);
    }
    start.count = count;
    start
}

/// An accepted start with the fault of a name, and no other.
fn one_fault(random: &mut Random, name: &'static str, place: At) -> Option<Case> {
    for _ in 0..200 {
        let shape = shape(random, false);
        let t = program(random, &shape);
        let mut start = start(random, &t);
        if let Some((_, answer)) = spoil(random, &t, &mut start, name, place) {
            return Some(Case { made: Some(answer), ..plain(start) });
        }
    }
    None
}

/// A start with some faults at once, of the table too: the lowest code and place are the answer.
fn mixed_faults(random: &mut Random) -> Case {
    let shape = shape(random, false);
    let t = program(random, &shape);
    let mut start = start(random, &t);
    for _ in 0..1 + random.below(4) {
        let name = FAULTS[random.below(FAULTS.len() as u64) as usize];
        spoil(random, &t, &mut start, name, At::Any);
    }
    if random.below(2) == 0 {
        let code = 1 + random.below(13) as u32;
        let mut bad = t.clone();
        let place = [Place::Lowest, Place::Highest, Place::Any][random.below(3) as usize];
        damage::records(random, &mut bad, code, place);
        start.table = bad.bytes();
        if code <= 4 {
            damage::header(random, &mut start.table, code);
        }
    }
    plain(start)
}

/// A run, good or bad, whose slice for the five numbers isn't five long, or is.
fn outs(random: &mut Random) -> Case {
    let mut case = if random.below(2) == 0 { mixed_faults(random) } else { programs(random, false).remove(0) };
    case.out = [0, 1, 2, 3, 4, 6, 7, 8, 10, 64, 5][random.below(11) as usize];
    case
}

/// A table with something sealed, clean or not, and two starts that agree in what is open and differ in what is sealed.
fn pair(random: &mut Random, clean: bool) -> (Table, [Case; 2]) {
    loop {
        let shape = shape(random, clean);
        let t = program(random, &shape);
        if (seal(&t.bytes()).0 == 0) != clean {
            continue;
        }
        let start = start(random, &t);
        let tried = varied(random, &start, false);
        let mut one = tried[random.below(tried.len() as u64) as usize].clone();
        // on a table that isn't clean the other run may not end
        one.budget = if clean { one.budget } else { one.budget.min(1_000) };
        let other = sibling(random, &t, &one);
        if values(&t, &one.state, &one.log, Variable::is_sealed)
            != values(&t, &other.state, &other.log, Variable::is_sealed)
        {
            return (t, [plain(one), plain(other)]);
        }
    }
}

/// A value that can be compared: its kind, its word, and of a memory its stores.
type Held = (u64, u64, Vec<(u64, u64)>);

/// The value of each variable that is asked for: absent and unknown are one, and a memory is the list of its stores.
fn values(t: &Table, state: &[u64], log: &[u64], wanted: fn(&Variable) -> bool) -> Vec<Held> {
    let pairs = t.variables.iter().zip(state.chunks(2)).filter(|(v, _)| wanted(v));
    pairs
        .map(|(_, pair)| match pair[0] {
            0 | 2 => (0, 0, vec![]),
            3 => (3, 0, stores(log, pair[1])),
            kind => (kind, pair[1], vec![]),
        })
        .collect()
}

/// Asks for pairs of a sort. Gives how many there are, how many end alike in what is open, and in what is sealed.
fn pairs(asker: &mut Asker, random: &mut Random, clean: bool, count: usize) -> Result<[usize; 3], String> {
    let (mut open, mut sealed) = (0, 0);
    let mut left = count;
    while left > 0 {
        let made: Vec<(Table, [Case; 2])> = (0..left.min(AT_ONCE / 2)).map(|_| pair(random, clean)).collect();
        left -= made.len();
        let tables: Vec<Table> = made.iter().map(|(t, _)| t.clone()).collect();
        let cases: Vec<Case> = made.into_iter().flat_map(|(_, both)| both).collect();
        let answers = asker.ask(&cases)?;
        for (i, t) in tables.iter().enumerate() {
            let (one, other) = (&answers[2 * i], &answers[2 * i + 1]);
            let alike = |wanted: fn(&Variable) -> bool| {
                values(t, &one.state, &one.log, wanted) == values(t, &other.state, &other.log, wanted)
            };
            let same = one.out == other.out && alike(|v| !v.is_sealed());
            if clean && !same {
                println!("pair {}: {:?} and {:?}", i, one.out, other.out);
                show(&cases[2 * i], one, one);
                show(&cases[2 * i + 1], other, other);
                return Err("two starts that agree in what is open end differently on a clean table".into());
            }
            open += usize::from(same);
            sealed += usize::from(alike(Variable::is_sealed));
        }
    }
    Ok([count, open, sealed])
}

fn show_tally(tally: &Tally) -> Result<(), String> {
    for (code, (times, low, high)) in &tally.codes {
        println!("code {:2}: {:6} runs, places {} to {}", code, times, low, high);
    }
    if let Some(code) = CODES.iter().find(|code| !tally.codes.contains_key(code)) {
        return Err(format!("code {} isn't met", code));
    }
    if let Some((code, _)) = tally.codes.iter().find(|(code, (_, low, high))| **code >= 5 && low == high) {
        return Err(format!("code {} is met at one place only", code));
    }
    for case in CASES.iter().chain(&NAMES) {
        let times = tally.met.get(case).copied().unwrap_or(0);
        println!("met {:32} {:9} times", case, times);
        if times == 0 {
            return Err(format!("{} isn't met", case));
        }
    }
    for fault in FAULTS {
        let times = tally.faults.get(fault).copied().unwrap_or(0);
        println!("fault {:44} {:5} times", fault, times);
        if times == 0 {
            return Err(format!("the fault '{}' isn't met", fault));
        }
    }
    println!("most ticks {}, most entries in a log {}", tally.most_ticks, tally.most_entries);
    Ok(())
}

/// A start with the fault of each name, at the first place, the last and any.
fn faults(asker: &mut Asker, random: &mut Random) -> Result<(), String> {
    let mut cases = Vec::new();
    for name in FAULTS {
        for place in [At::First, At::Last, At::Any] {
            let before = cases.len();
            cases.extend((0..FAULTS_OF_A_SORT).filter_map(|_| one_fault(random, name, place)));
            *asker.tally.faults.entry(name).or_insert(0) += cases.len() - before;
        }
    }
    asker.ask(&cases).map(|_| ())
}

/// All runs that are compared on their own.
fn singles(asker: &mut Asker, random: &mut Random) -> Result<(), String> {
    faults(asker, random)?;
    asker.ask(&(0..MIXED_FAULTS).map(|_| mixed_faults(random)).collect::<Vec<_>>())?;
    asker.ask(&(0..OUTS).map(|_| outs(random)).collect::<Vec<_>>())?;
    asker.ask(&planned(random))?;
    asker.ask(&large_logs(random))?;
    asker.ask(&long())?;
    asker.ask(&(0..OTHERS).flat_map(|_| others(random)).collect::<Vec<_>>())?;
    for every in [true, false] {
        let mut left = if every { SWEPT } else { PROGRAMS };
        while left > 0 {
            let some = left.min(500);
            left -= some;
            asker.ask(&(0..some).flat_map(|_| programs(random, every)).collect::<Vec<_>>())?;
        }
    }
    Ok(())
}

fn test(command: &[String]) -> Result<String, String> {
    let mut random = Random::new(20_181_005);
    let mut asker = Asker { command, random: Random::new(1), tally: Tally::default(), noticed: 0 };
    singles(&mut asker, &mut random)?;
    let [clean, _, same_sealed] = pairs(&mut asker, &mut random, true, CLEAN_PAIRS)?;
    let [leaky, alike, _] = pairs(&mut asker, &mut random, false, LEAKY_PAIRS)?;
    let Asker { tally, noticed, .. } = asker;
    show_tally(&tally)?;
    println!("pairs on clean tables: {}, none differs; {} differ in what is sealed", clean, clean - same_sealed);
    println!("pairs on tables that aren't clean: {}, {} differ", leaky, leaky - alike);
    if tally.made_wrong > 0 {
        return Err(format!("{} starts aren't of the sort that they were made for", tally.made_wrong));
    }
    if tally.runs < RUNS || clean < PAIRS || same_sealed == clean || alike == leaky {
        return Err("too few runs or pairs, or the pairs say nothing".into());
    }
    Ok(format!(
        "{} runs, no difference; {} pairs on clean tables agree, {} of {} on others differ; {} wrong answers made, all noticed",
        tally.runs,
        clean,
        leaky - alike,
        leaky,
        noticed
    ))
}

fn main() {
    let command: Vec<String> = std::env::args().skip(1).collect();
    if command.is_empty() {
        eprintln!("usage: runs DRIVER [ARGS]");
        exit(2);
    }
    match test(&command) {
        Ok(line) => println!("{}", line),
        Err(line) => {
            println!("runs: {}", line);
            exit(1);
        }
    }
}
