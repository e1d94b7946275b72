//! tables NAME [EXPRESSIONS]: writes a table to standard output, to measure on.
//!
//! Accepted and clean:
//!
//!     small            the scope's example of 72 bytes
//!     middle           20 variables, 150 expressions and 40 statements, as of a few lifted instructions
//!     largest          256 variables, 2,048 expressions and 1,024 statements
//!     mixed N          20 variables, N expressions and N / 4 statements
//!     chains N         N / 64 chains, each 64 deep
//!     lets N           about N / 127 towers of 63 lets inside each other, around a read of the outermost
//!
//! Refused:
//!
//!     twice            2,048 expressions, each of them both operands of the next: 8
//!     operands         a chain of 2,048 expressions: 9
//!     ifs              1,024 ifs inside each other: 10

use std::io::Write;
use std::process::exit;
use tests::random::Random;
use tests::tables::{accepted, chains, doubled, example, lets, nested, Shape, LARGEST};
use tests::verdicts::Table;

fn made(name: &str, expressions: usize) -> Option<Table> {
    let mut random = Random::new(20_181_005);
    let shape = Shape { variables: 20, expressions, statements: expressions / 4, depth: 12, nesting: 4, clean: true };
    let whole = expressions as u32;
    match (name, expressions) {
        ("small", 0) => Some(example()),
        ("middle", 0) => Some(accepted(&mut random, &Shape { expressions: 150, statements: 40, ..shape })),
        ("largest", 0) => Some(accepted(&mut random, &LARGEST)),
        ("mixed", 4..=2_048) => Some(accepted(&mut random, &shape)),
        ("chains", 64..=2_048) => Some(chains(64, whole / 64)),
        ("lets", 64..=2_048) => Some(lets(64, (whole + 127) / 128)),
        ("twice", 0) => Some(doubled()),
        ("operands", 0) => Some(chains(2_048, 1)),
        ("ifs", 0) => Some(nested(6, false, 1_024)),
        _ => None,
    }
}

fn main() {
    let words: Vec<String> = std::env::args().skip(1).collect();
    let number = words.get(1).map_or(Some(0), |n| n.parse().ok());
    let table = number.and_then(|n| made(words.first()?, n)).unwrap_or_else(|| {
        eprintln!("usage: tables small|middle|largest|twice|operands|ifs");
        eprintln!("       tables mixed|chains|lets EXPRESSIONS, from 64 to 2048");
        exit(2)
    });
    std::io::stdout().write_all(&table.bytes()).expect("standard output takes the table");
}
