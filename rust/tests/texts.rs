//! The texts and the version, each against the file of the repository that has it first.

use bil::{Code, Ending, Refusal, Stop};
use std::fs;

fn file(name: &str) -> String {
    fs::read_to_string(format!("{}/../{name}", env!("CARGO_MANIFEST_DIR"))).expect(name)
}

/// The rows of the table 'Codes' of docs/FORMAT.md: code, means, place.
fn rows() -> Vec<(u32, String, String)> {
    let page = file("docs/FORMAT.md");
    let codes = page.split("\n## ").find(|section| section.starts_with("Codes\n")).expect("a section 'Codes'");
    let row = |line: &str| {
        let cells: Vec<&str> = line.split('|').map(str::trim).collect();
        let number = cells.get(1)?.parse().ok()?;
        Some((number, cells[2].to_string(), cells[3].to_string()))
    };
    codes.lines().filter_map(row).collect()
}

#[test]
fn each_text_is_the_one_of_the_format() {
    let rows = rows();
    let numbers: Vec<u32> = rows.iter().map(|row| row.0).collect();
    assert_eq!(numbers, (0..=18).chain(32..=36).collect::<Vec<u32>>());
    for (number, means, place) in rows {
        match number {
            0 => assert_eq!(means, format!("accepted; clean; {}", Ending::Done)),
            1..=18 => {
                let code = Code::of(number);
                assert_eq!((code as u32, code.to_string()), (number, means));
                let counts = match code.kind().to_string().as_str() {
                    "whole" => "0".to_string(),
                    "start" => "0 to 3".to_string(),
                    "entry" => "entry, from 1".to_string(),
                    other => other.to_string(),
                };
                assert_eq!(counts, place, "{number}");
            }
            _ => {
                let stop = Stop::of(number);
                assert_eq!((stop as u32, stop.to_string()), (number, means));
                assert_eq!(place, "statement", "{number}");
            }
        }
    }
}

#[test]
fn a_refusal_names_its_code_and_its_place() {
    let text = |code, place| Refusal { code, place }.to_string();
    assert_eq!(text(Code::Short, 0), "refusal 1: fewer than 32 bytes");
    assert_eq!(
        text(Code::Seal, 6),
        "refusal 14 at expression 6: a load or store at a sealed address, or a sealed value bound to an open let variable"
    );
    assert_eq!(text(Code::Variable, 0), "refusal 5 at variable 0: no variable has such a record");
    assert_eq!(text(Code::Nesting, 40), "refusal 10 at statement 40: a statement nested over 32 deep");
    assert_eq!(text(Code::Entry, 1), "refusal 17 at entry 1: an entry of the log breaks the log's rules");
}

#[test]
fn refusal_16_has_a_text_for_each_place() {
    let part = |place| {
        let text = Refusal { code: Code::Start, place }.to_string();
        text.strip_prefix("refusal 16: ").expect("its number").to_string()
    };
    assert_eq!(part(0), "the state is not 2V numbers");
    let joined = format!("{} (place 0); {} (1); {} (2); {} (3)", part(0), part(1), part(2), part(3));
    assert_eq!(joined, Code::Start.to_string());
    assert_eq!(part(4), "there is no such place");
    assert_eq!(part(u32::MAX), "there is no such place");
}

#[test]
fn an_ending_says_how_it_came() {
    assert_eq!(Ending::Done.to_string(), "done");
    assert_eq!(Ending::Stopped(Stop::Guard, 2).to_string(), "stopped by 32 at statement 2: a guard is unknown");
    let refusal = Refusal { code: Code::Pair, place: 1 };
    assert_eq!(Ending::Refused(refusal).to_string(), refusal.to_string());
}

#[test]
fn the_version_is_that_of_the_header() {
    let wanted = format!("#define BIL_VERSION \"{}\"", env!("CARGO_PKG_VERSION"));
    assert!(file("include/bil.h").lines().any(|line| line == wanted), "bil.h has no line {wanted}");
}
