//! words DRIVER [ARGS]: asks a driver over the archive for word operations, and compares each answer.
//!
//! The requests are every sub at every width on words at the edges and on random ones, then bad ones of each sort.
//! Prints the counts and, last, one line that sums them up. Ends with 1 at any difference, and where a wrong answer that
//! it makes itself isn't noticed.

use std::process::exit;
use tests::pipe;
use tests::random::Random;
use tests::words::{answer, Answer, Request, NAMES};

/// How many random pairs each sub gets at each width, beside those at the edges.
const RANDOM_PAIRS: usize = 300;

/// How many random bad requests are made of each sort.
const BAD_OF_A_SORT: usize = 4_000;

/// At these widths and below, every pair of words is asked.
const SMALL: u32 = 5;

/// The words of a width at which an operation is likely to go wrong: all of them at a small width.
fn edges(width: u32) -> Vec<u64> {
    let ones = u64::MAX >> (64 - width);
    if width <= SMALL {
        return (0..=ones).collect();
    }
    let sign = 1 << (width - 1);
    let w = u64::from(width);
    let mut words = vec![0, 1, 2, 3, sign - 1, sign, sign + 1, ones - 1, ones, ones / 3];
    words.extend([w - 1, w, w + 1, 63, 64, 65, 0xFFFF_FFFF, 0x1_0000_0000]);
    words.retain(|x| *x <= ones);
    words.sort();
    words.dedup();
    words
}

/// Two words of a width: both long, or with the second one short, so that shifts and quotients say something.
fn pair(random: &mut Random, width: u32) -> (u64, u64) {
    let a = random.word(width);
    let b = if random.below(2) == 0 { random.word(width) } else { random.word(width) >> random.below(width.into()) };
    (a, b)
}

fn good_requests(random: &mut Random) -> Vec<Request> {
    let mut requests = Vec::new();
    for width in 1..=64 {
        let edges = edges(width);
        for sub in 1..=19 {
            for &a in &edges {
                requests.extend(edges.iter().map(|&b| Request { sub, width, a, b }));
            }
            for _ in 0..RANDOM_PAIRS {
                let (a, b) = pair(random, width);
                requests.push(Request { sub, width, a, b });
            }
        }
    }
    requests
}

/// A number with more than `width` bits, for a width below 64.
fn too_long(random: &mut Random, width: u32) -> u64 {
    let bits = width + random.below(u64::from(64 - width)) as u32;
    1 << bits | random.word(bits + 1)
}

fn bad_requests(random: &mut Random) -> Vec<Request> {
    let mut requests = Vec::new();
    for i in 0..BAD_OF_A_SORT {
        let sub = 1 + random.below(19) as u32;
        let width = 1 + random.below(63) as u32;
        let (a, b) = pair(random, width);
        let other = random.number() as u32;
        let bad_sub = [0, 20, u32::MAX, sub + 256, sub + 65_536, other.max(20)][i % 6];
        let bad_width = [0, 65, u32::MAX, width + 256, width + 65_536, other.max(65)][i % 6];
        requests.push(Request { sub: bad_sub, width, a, b });
        requests.push(Request { sub, width: bad_width, a: a & 1, b: b & 1 });
        requests.push(Request { sub: bad_sub, width: bad_width, a, b });
        let (long_a, long_b) = (too_long(random, width), too_long(random, width));
        requests.push(Request { sub, width, a: long_a, b });
        requests.push(Request { sub, width, a, b: long_b });
        requests.push(Request { sub, width, a: long_a, b: long_b });
        // just one bit too many, and with a divisor of 0, which alone would be unknown
        requests.push(Request { sub, width, a: 1 << width, b: 0 });
        requests.push(Request { sub, width, a: 0, b: 1 << width });
    }
    requests
}

/// The places at which the driver's bytes aren't those of the expected answers.
fn differences(expected: &[Answer], given: &[u8]) -> Vec<usize> {
    let answers = given.chunks(16);
    expected.iter().zip(answers).enumerate().filter(|(_, (e, g))| e.bytes() != **g).map(|(i, _)| i).collect()
}

/// Makes wrong answers, one bit of one answer at a time, and sees that each is noticed, where it is and nowhere else.
/// Gives the number that it made.
fn control(expected: &[Answer], given: &[u8], random: &mut Random) -> Result<usize, String> {
    let made = 50;
    for _ in 0..made {
        let place = random.below(expected.len() as u64) as usize;
        let mut wrong = given.to_vec();
        wrong[16 * place + random.below(16) as usize] ^= 1 << random.below(8);
        if differences(expected, &wrong) != [place] {
            return Err(format!("a wrong answer made at request {} isn't noticed as it should be", place));
        }
    }
    Ok(made)
}

fn show_counts(requests: &[Request], expected: &[Answer], good: usize) {
    for (sub, name) in (1..).zip(NAMES) {
        let kinds: Vec<u32> = (0..good).filter(|&i| requests[i].sub == sub).map(|i| expected[i].kind()).collect();
        let unknown = kinds.iter().filter(|&&k| k == 2).count();
        println!(
            "sub {:2} {:5} {:6} requests: {:6} word, {:5} unknown",
            sub,
            name,
            kinds.len(),
            kinds.len() - unknown,
            unknown
        );
    }
    for (kind, name) in ["bad", "word", "unknown"].iter().enumerate() {
        println!("kind {} {:7} {:6} answers", kind, name, expected.iter().filter(|e| e.kind() == kind as u32).count());
    }
}

fn run(command: &[String]) -> Result<String, String> {
    let mut random = Random::new(20_181_005);
    let mut requests = good_requests(&mut random);
    let good = requests.len();
    requests.extend(bad_requests(&mut random));
    let expected: Vec<Answer> = requests.iter().map(answer).collect();
    if expected.iter().enumerate().any(|(i, e)| (*e == Answer::Bad) != (i >= good)) {
        return Err("a request isn't of the sort that it was made for".into());
    }

    let given = pipe::ask(command, requests.iter().flat_map(Request::bytes).collect())?;
    if given.len() != 16 * requests.len() {
        return Err(format!("{} requests got {} bytes of answers", requests.len(), given.len()));
    }
    show_counts(&requests, &expected, good);
    let wrong = differences(&expected, &given);
    for &i in wrong.iter().take(20) {
        println!("{:?}: expected {:?}, given {:02x?}", requests[i], expected[i], &given[16 * i..16 * (i + 1)]);
    }
    if !wrong.is_empty() {
        return Err(format!("{} of {} answers differ", wrong.len(), requests.len()));
    }
    let made = control(&expected, &given, &mut random)?;
    let bad = requests.len() - good;
    Ok(format!("{} good and {} bad requests, no difference; {} wrong answers made, all noticed", good, bad, made))
}

fn main() {
    let command: Vec<String> = std::env::args().skip(1).collect();
    if command.is_empty() {
        eprintln!("usage: words DRIVER [ARGS]");
        exit(2);
    }
    match run(&command) {
        Ok(line) => println!("{}", line),
        Err(line) => {
            println!("words: {}", line);
            exit(1);
        }
    }
}
