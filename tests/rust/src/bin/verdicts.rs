//! verdicts DRIVER [ARGS]: asks a driver over bil.h for the verdicts on tables, and compares each code and place.
//!
//! Prints how often each code and each op was met and, last, one line that sums up. Ends with 1 at any difference,
//! where a code or an op isn't met, and where a table isn't of the sort that it was made for or a wrong answer that it
//! makes itself isn't noticed.

use std::process::exit;
use tests::cases::{cases, Made};
use tests::pipe;
use tests::random::Random;
use tests::verdicts::{check, seal, Verdict};

/// What the driver must answer: the check's verdict and the seal check's.
type Answer = [Verdict; 2];

/// That a table is of the sort that it was made for; a table that is meant to be accepted may leak.
fn is_as_made(made: &Made, [checked, sealed]: &Answer) -> bool {
    let verdict = if made.code >= Some(14) { sealed } else { checked };
    made.code.map_or(true, |code| code == verdict.0 && made.place.map_or(true, |place| place == verdict.1))
}

fn bytes_of(answer: &Answer) -> [u8; 16] {
    let mut bytes = [0; 16];
    for (i, number) in answer.iter().flat_map(|&(code, place)| [code, place]).enumerate() {
        bytes[4 * i..4 * i + 4].copy_from_slice(&number.to_le_bytes());
    }
    bytes
}

/// The tables at which the driver's bytes aren't those of the expected answers.
fn differences(expected: &[Answer], given: &[u8]) -> Vec<usize> {
    let answers = expected.iter().zip(given.chunks(16)).enumerate();
    answers.filter(|(_, (e, g))| bytes_of(e) != **g).map(|(i, _)| i).collect()
}

/// Makes wrong answers, one bit of one answer at a time, and sees that each is noticed, where it is and nowhere else.
/// Gives the number that it made.
fn control(expected: &[Answer], given: &[u8], random: &mut Random) -> Result<usize, String> {
    let made = 50;
    for _ in 0..made {
        let place = random.below(expected.len() as u64) as usize;
        let mut wrong = given.to_vec();
        wrong[16 * place + random.below(16) as usize] ^= 1 << random.below(8);
        if differences(expected, &wrong) != [place] {
            return Err(format!("a wrong answer made at table {} isn't noticed as it should be", place));
        }
    }
    Ok(made)
}

/// How often each code is met, by both entries, and at which places. A code that isn't met is an error.
fn show_codes(expected: &[Answer]) -> Result<(), String> {
    for code in 0..=15 {
        let met = |entry: usize| expected.iter().map(move |e| e[entry]).filter(move |v| v.0 == code);
        let (checked, sealed) = (met(0).count(), met(1).count());
        if sealed == 0 || (code <= 13 && checked == 0) {
            return Err(format!("code {} isn't met", code));
        }
        let (low, high) = (met(1).map(|v| v.1).min().unwrap_or(0), met(1).map(|v| v.1).max().unwrap_or(0));
        println!("code {:2}: {:5} by check, {:5} by seal check, places {} to {}", code, checked, sealed, low, high);
        if code >= 5 && low == high {
            return Err(format!("code {} is met at one place only", code));
        }
    }
    Ok(())
}

/// The records of a table's expressions, or of its statements. Its header is good.
fn records(bytes: &[u8], statements: bool) -> Vec<&[u8]> {
    let four = |at: usize| u32::from_le_bytes([0, 1, 2, 3].map(|i| bytes[at + i])) as usize;
    let (start, end) = if statements { (four(24), four(28)) } else { (four(16), four(24)) };
    bytes[start..end].chunks(16).collect()
}

/// How often accepted tables have each op, each sub and each statement. One that isn't met is an error.
fn show_ops(made: &[Made], expected: &[Answer]) -> Result<(), String> {
    let (mut ops, mut subs, mut statements) = ([0; 13], [0; 20], [0; 7]);
    for (made, _) in made.iter().zip(expected).filter(|(_, e)| e[0].0 == 0) {
        for record in records(&made.bytes, false) {
            ops[record[0] as usize] += 1;
            subs[if record[0] == 5 { record[1] } else { 0 } as usize] += 1;
        }
        records(&made.bytes, true).iter().for_each(|record| statements[record[0] as usize] += 1);
    }
    println!("in accepted tables: ops 1 to 12 {:?}", &ops[1..]);
    println!("in accepted tables: subs 1 to 19 {:?}", &subs[1..]);
    println!("in accepted tables: statements 1 to 6 {:?}", &statements[1..]);
    let missing = ops[1..].contains(&0) || subs[1..].contains(&0) || statements[1..].contains(&0);
    if missing {
        Err("an op, a sub or a statement isn't met".into())
    } else {
        Ok(())
    }
}

/// How often each refusal of a record names one of each op that it can. One that isn't met is an error.
fn show_faults(made: &[Made], expected: &[Answer]) -> Result<(), String> {
    let every: Vec<u8> = (1..=12).collect();
    let faults: [(u32, bool, &[u8]); 7] = [
        (6, false, &every),
        (7, true, &every[..6]),
        (11, false, &[1, 8]),
        (12, false, &[3, 4, 5, 6, 7, 8, 10, 11, 12]),
        (13, true, &[1, 2, 5, 6]),
        (14, false, &[3, 4, 8]),
        (15, true, &[1, 2, 5, 6]),
    ];
    for (code, statements, ops) in faults {
        let mut met = [0; 256];
        for (made, answer) in made.iter().zip(expected).filter(|(_, e)| e[1].0 == code) {
            met[records(&made.bytes, statements)[answer[1].1 as usize][0] as usize] += 1;
        }
        let counts: Vec<u32> = ops.iter().map(|&op| met[op as usize]).collect();
        println!("code {:2} at records of op {:?}: {:?}", code, ops, counts);
        if counts.contains(&0) {
            return Err(format!("code {} isn't met at each op that it can name", code));
        }
    }
    Ok(())
}

fn run(command: &[String]) -> Result<String, String> {
    let made = cases();
    let expected: Vec<Answer> = made.iter().map(|m| [check(&m.bytes), seal(&m.bytes)]).collect();
    if let Some(i) = (0..made.len()).find(|&i| !is_as_made(&made[i], &expected[i])) {
        let Made { code, place, bytes } = &made[i];
        return Err(format!("table {} was made for {:?} {:?}: {:?} {:02x?}", i, code, place, expected[i], bytes));
    }

    let request = |m: &Made| (m.bytes.len() as u32).to_le_bytes().into_iter().chain(m.bytes.clone());
    let given = pipe::ask(command, made.iter().flat_map(request).collect())?;
    if given.len() != 16 * made.len() {
        return Err(format!("{} tables got {} bytes of answers", made.len(), given.len()));
    }
    let wrong = differences(&expected, &given);
    for &i in wrong.iter().take(20) {
        let start = &made[i].bytes[..made[i].bytes.len().min(400)];
        println!("table {}: expected {:?}, given {:02x?}: {:02x?}", i, expected[i], &given[16 * i..16 * i + 16], start);
    }
    show_codes(&expected)?;
    show_ops(&made, &expected)?;
    show_faults(&made, &expected)?;
    if !wrong.is_empty() {
        return Err(format!("{} of {} tables differ", wrong.len(), made.len()));
    }
    let noticed = control(&expected, &given, &mut Random::new(1))?;
    Ok(format!(
        "{} tables, {} verdicts, no difference; {} wrong answers made, all noticed",
        made.len(),
        2 * made.len(),
        noticed
    ))
}

fn main() {
    let command: Vec<String> = std::env::args().skip(1).collect();
    if command.is_empty() {
        eprintln!("usage: verdicts DRIVER [ARGS]");
        exit(2);
    }
    match run(&command) {
        Ok(line) => println!("{}", line),
        Err(line) => {
            println!("verdicts: {}", line);
            exit(1);
        }
    }
}
