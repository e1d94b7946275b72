//! The tables of examples/ through the wrapper, against the lines that stand beside them.

use bil::{check, seal_check, Code, Ending, Kind, Machine, Refusal, Stop, Value};
use std::fmt::Write;
use std::fs;
use std::path::{Path, PathBuf};

const EXAMPLES: &str = concat!(env!("CARGO_MANIFEST_DIR"), "/../examples");

fn table(name: &str) -> Vec<u8> {
    fs::read(Path::new(EXAMPLES).join(name).with_extension("table")).expect("an example")
}

/// A verdict's two numbers.
fn numbers(verdict: Result<(), Refusal>) -> (u32, u32) {
    verdict.map_or_else(|r| (r.code as u32, r.place), |()| (0, 0))
}

/// What bilrun prints of a table, made from the wrapper's answers.
fn lines(table: &[u8]) -> String {
    let mut text = String::new();
    let (code, place) = numbers(check(table));
    writeln!(text, "verdict {code} {place}").unwrap();
    let mut machine = match Machine::for_table(table, 2048) {
        Ok(machine) => machine,
        Err(_) => return text,
    };
    let (code, place) = numbers(seal_check(table));
    writeln!(text, "seal {code} {place}").unwrap();
    let (ending, ticks) = machine.run(table, 10_000);
    let (code, place) = match ending {
        Ending::Done => (0, 0),
        Ending::Refused(r) => (r.code as u32, r.place),
        Ending::Stopped(stop, place) => (stop as u32, place),
    };
    writeln!(text, "run {code} {place} {ticks} {} {}", machine.entries().len(), machine.next()).unwrap();
    let variables = (0..).map_while(|x| machine.get(x));
    for (x, value) in variables.enumerate() {
        if table[32 + 8 * x + 4] == 0 {
            writeln!(text, "var {x} {value}").unwrap();
        } else {
            assert_eq!(value, Value::Absent, "let variables are absent at every end");
        }
    }
    text
}

#[test]
fn every_example_prints_what_stands_beside_it() {
    let tables: Vec<PathBuf> = fs::read_dir(EXAMPLES)
        .expect("examples/")
        .map(|entry| entry.unwrap().path())
        .filter(|path| path.extension().map_or(false, |e| e == "table"))
        .collect();
    assert!(tables.len() >= 11);
    for path in tables {
        let wanted = fs::read_to_string(path.with_extension("expected")).unwrap();
        assert_eq!(lines(&fs::read(&path).unwrap()), wanted, "{}", path.display());
    }
}

#[test]
fn refusals_and_stops_are_named() {
    assert_eq!(check(&[]), Err(Refusal { code: Code::Short, place: 0 }));
    let leak = seal_check(&table("leaked_address")).unwrap_err();
    assert_eq!((leak.code, leak.code.kind(), leak.place), (Code::Seal, Kind::Expression, 6));
    let mut machine = Machine::for_table(&table("half_packet"), 8).unwrap();
    assert_eq!(machine.run(&table("half_packet"), 10), (Ending::Stopped(Stop::Guard, 2), 3));
    let mut machine = Machine::for_table(&table("endless"), 0).unwrap();
    assert_eq!(machine.run(&table("endless"), 7), (Ending::Stopped(Stop::NoTick, 1), 7));
}

#[test]
fn a_run_goes_on_from_the_one_before() {
    let bytes = table("packet_little");
    let mut machine = Machine::for_table(&bytes, 3).unwrap();
    assert_eq!(machine.run(&bytes, 100), (Ending::Done, 3));
    assert_eq!(machine.entries(), [[0, 16, 0x40, 0x28], [1, 16, 0x41, 0x23]]);
    // the second run appends one byte more, and the log is full at the next
    assert_eq!(machine.run(&bytes, 100), (Ending::Stopped(Stop::LogFull, 1), 2));
    assert_eq!(machine.entries().len(), 3);
    assert_eq!(machine.get(1), Some(Value::Word(9000)));
}
