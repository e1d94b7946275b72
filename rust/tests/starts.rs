//! Starts of a run, good and bad, and what a machine says of variables that it doesn't have. Words too.

use bil::{word, Code, Ending, Machine, Refusal, Sub, Value, Word};
use std::fs;
use std::panic::{catch_unwind, AssertUnwindSafe};

/// Stores a byte at 0x40 and one at 0x41 of variable 0, a memory, and loads both into variable 1, of 16 bits; A is 16.
fn packet() -> Vec<u8> {
    fs::read(concat!(env!("CARGO_MANIFEST_DIR"), "/../examples/packet_little.table")).expect("an example")
}

fn machine() -> Machine {
    Machine::for_table(&packet(), 3).unwrap()
}

/// Runs the packet, which refuses the start and leaves it as it was.
fn refused(mut machine: Machine, code: Code, place: u32) {
    let before = machine.clone();
    assert_eq!(machine.run(&packet(), 100), (Ending::Refused(Refusal { code, place }), 0));
    assert_eq!(machine, before);
}

/// What a panic says.
fn panic_of<T>(call: impl FnOnce() -> T) -> String {
    let said = catch_unwind(AssertUnwindSafe(|| drop(call()))).expect_err("a panic");
    said.downcast_ref::<String>().cloned().or_else(|| said.downcast_ref::<&str>().map(|s| (*s).to_string())).unwrap()
}

/// Numbers that twice over, or twice over and one or two more, come round to a variable's where a product wraps.
const HUGE: [usize; 4] = [usize::MAX / 2 + 1, usize::MAX / 2 + 2, usize::MAX / 2, usize::MAX];

#[test]
fn variables_that_are_not_there() {
    let mut machine = Machine::new(2, 0);
    machine.set(0, Value::Word(1));
    machine.set(1, Value::Unknown);
    let before = machine.clone();
    for variable in HUGE.into_iter().chain([2, 3]) {
        assert_eq!(machine.get(variable), None, "{variable}");
        let said = panic_of(|| machine.set(variable, Value::Word(7)));
        assert_eq!(said, format!("there is no variable {variable}: the machine has 2"));
    }
    assert_eq!(machine, before);
}

#[test]
fn machines_of_more_than_there_is() {
    for many in HUGE {
        assert_eq!(panic_of(|| Machine::new(many, 0)), "capacity overflow");
        assert_eq!(panic_of(|| Machine::new(0, many)), "capacity overflow");
    }
}

#[test]
fn a_start_with_a_next_address() {
    let mut machine = machine().with_next(0xFFFF);
    assert_eq!(machine.next(), 0xFFFF);
    assert_eq!(machine.run(&packet(), 100), (Ending::Done, 3));
    assert_eq!(machine.next(), 0xFFFF);
    refused(machine.with_next(0x1_0000), Code::Start, 3);
}

#[test]
fn a_start_with_entries() {
    let earlier = [[0, 16, 0x42, 0x11], [1, 16, 0x43, 256]];
    let mut machine = machine().with_entries(&earlier);
    assert_eq!(machine.entries(), earlier);
    machine.set(0, Value::Memory(2));
    // there is room for one entry more
    assert_eq!(
        machine.run(&packet(), 100).0.to_string(),
        "stopped by 34 at statement 1: the log is full when a byte is to be appended"
    );
    assert_eq!(machine.entries(), [[0, 16, 0x42, 0x11], [1, 16, 0x43, 256], [2, 16, 0x40, 0x28]]);
    // what a run left can be lent again, to a machine that had other entries and room for more
    let mut other =
        Machine::for_table(&packet(), 9).unwrap().with_entries(&[[0, 1, 1, 1]; 8]).with_entries(machine.entries());
    other.set(0, machine.get(0).unwrap());
    assert_eq!(other.run(&packet(), 100), (Ending::Done, 3));
    assert_eq!(other.entries()[3..], [[3, 16, 0x40, 0x28], [4, 16, 0x41, 0x23]]);
    assert_eq!(other.get(0), Some(Value::Memory(5)));
    assert_eq!(other.get(1), Some(Value::Word(9000)));
}

#[test]
fn entries_make_the_room_that_they_need() {
    let entries = [[0, 16, 0x42, 0x11]; 5];
    let machine = machine().with_entries(&entries);
    assert_eq!(machine.entries(), entries);
    refused(machine.with_entries(&[[0, 16, 0x42, 0x11], [2, 16, 0x42, 0x11]]), Code::Entry, 2);
    refused(Machine::new(2, 0).with_entries(&vec![[0, 1, 0, 0]; 65_537]), Code::Start, 1);
}

#[test]
fn bad_starts_are_refused_and_left_alone() {
    refused(Machine::new(1, 3), Code::Start, 0);
    refused(Machine::new(3, 3), Code::Start, 0);
    let mut wide = machine();
    wide.set(1, Value::Word(1 << 16));
    refused(wide.clone(), Code::Pair, 1);
    wide.set(1, Value::Memory(1));
    refused(wide.clone(), Code::Pair, 1);
    wide.set(1, Value::Absent);
    wide.set(0, Value::Memory(1));
    refused(wide, Code::Pair, 0);
}

#[test]
fn words() {
    assert_eq!(word(Sub::Sdiv, 8, 0x80, 0xFF), Word::Known(0x80));
    assert_eq!(word(Sub::Sle, 8, 0x80, 0x7F), Word::Known(1));
    assert_eq!(word(Sub::Mod, 8, 1, 0), Word::Unknown);
    assert_eq!(word(Sub::Plus, 8, 256, 0), Word::Bad);
    assert_eq!(word(Sub::Plus, 65, 0, 0), Word::Bad);
}
