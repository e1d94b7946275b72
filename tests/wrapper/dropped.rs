//! Each marked line drops an answer that it is a mistake to drop, so that the compiler has a word to say on it. This is
//! compiled and never run.

use bil::{check, seal_check, word, Code, Ending, Machine, Refusal, Stop, Sub, Word};

fn refusal() -> Refusal {
    Refusal { code: Code::Short, place: 0 }
}

fn ending() -> Ending {
    Ending::Done
}

fn answer() -> Word {
    Word::Bad
}

fn main() {
    let mut machine = Machine::new(1, 0);
    check(&[]); // dropped
    seal_check(&[]); // dropped
    word(Sub::Plus, 8, 1, 2); // dropped
    Code::of(1); // dropped
    Code::Short.kind(); // dropped
    Stop::of(32); // dropped
    Machine::new(1, 0); // dropped
    Machine::for_table(&[], 0); // dropped
    machine.clone().with_next(1); // dropped
    machine.clone().with_entries(&[]); // dropped
    machine.get(0); // dropped
    machine.next(); // dropped
    machine.entries(); // dropped
    machine.run(&[], 1); // dropped
    refusal(); // dropped
    ending(); // dropped
    answer(); // dropped
}
