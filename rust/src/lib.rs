//! BIL tables from safe Rust: both verdicts, the run, and operations on words, over the proved library libbil.a.
//!
//! ```
//! use bil::{check, seal_check, Ending, Machine, Value};
//!
//! // x := 5, byte by byte as docs/FORMAT.md has it
//! let table = [
//!     1, 0, 8, 0, 1, 0, 0, 0, 32, 0, 0, 0, 1, 0, 0, 0, // format 1, A 8; V 1, at 32; E 1,
//!     40, 0, 0, 0, 1, 0, 0, 0, 56, 0, 0, 0, 72, 0, 0, 0, // at 40; S 1, at 56; total 72
//!     1, 0, 8, 0, 0, 0, 0, 0, // variable 0: immediate, open, 8 bits, state
//!     2, 0, 8, 0, 0, 0, 0, 0, 5, 0, 0, 0, 0, 0, 0, 0, // expression 0: word of 8 bits, 5
//!     1, 0, 0, 0, 0, 0, 0, 0, 0, 0, 0, 0, 0, 0, 0, 0, // statement 0: move expression 0 to variable 0
//! ];
//! check(&table)?;
//! seal_check(&table)?;
//! let mut machine = Machine::for_table(&table, 2048)?;
//! let (ending, ticks) = machine.run(&table, 10_000);
//! assert_eq!((ending, ticks), (Ending::Done, 1));
//! assert_eq!(machine.get(0), Some(Value::Word(5)));
//!
//! // a table that is cut is refused, and the refusal says why
//! let refusal = check(&table[..71]).unwrap_err();
//! assert_eq!(refusal.to_string(), "refusal 4: an offset, the total or the length is not what the counts give");
//! # Ok::<(), bil::Refusal>(())
//! ```
//!
//! The library reads and writes what it is lent and keeps no pointer, so a slice is all that a call needs. What the C form
//! asks of a caller and a slice doesn't give by itself is seen to here: a length is the slice's own, the buffers of a run are
//! borrowed apart from each other, and the five numbers of a run have a place of their own. Every content is allowed: bad
//! ones are answered by a [`Refusal`]. A number from the library that its rules don't have is a fault of the library, and
//! panics.
//!
//! A call needs stack: 256 KiB are enough for every table and every budget (measured, not proved). A thread with less may
//! overflow its stack, which ends the program.
//!
//! The archive is for x86-64 Linux. `BIL_ARCHIVE` names the folder of a libbil.a that stands elsewhere than in the
//! repository's target/staticlib.

#![warn(missing_docs, clippy::must_use_candidate, clippy::missing_errors_doc, clippy::missing_panics_doc)]

mod codes;

pub use codes::{Code, Kind, Refusal, Stop, Sub};

use std::fmt;

/// The calls of `include/bil.h`. A slice goes as a pointer and a length.
mod c {
    extern "C" {
        pub fn bil_check_code(table: *const u8, length: usize) -> u32;
        pub fn bil_check_place(table: *const u8, length: usize) -> u32;
        pub fn bil_seal_code(table: *const u8, length: usize) -> u32;
        pub fn bil_seal_place(table: *const u8, length: usize) -> u32;
        pub fn bil_word_kind(sub: u32, width: u32, a: u64, b: u64) -> u32;
        pub fn bil_word_value(sub: u32, width: u32, a: u64, b: u64) -> u64;
        pub fn bil_run(
            table: *const u8,
            length: usize,
            state: *mut u64,
            state_size: usize,
            log: *mut u64,
            log_size: usize,
            log_count: u64,
            next: u64,
            budget: u32,
            out: *mut u64,
            out_size: usize,
        ) -> u32;
    }
}

/// What a code of a verdict says. The place is asked for only where the code has one, since the library works the whole
/// verdict out again for it.
fn verdict(code: u32, place: impl FnOnce() -> u32) -> Result<(), Refusal> {
    if code == 0 {
        return Ok(());
    }
    let code = Code::of(code);
    let place = if code.kind() == Kind::Whole { 0 } else { place() };
    Err(Refusal { code, place })
}

/// The check of a table. Any bytes may be asked about.
///
/// # Errors
/// The first of refusals 1 to 13.
pub fn check(table: &[u8]) -> Result<(), Refusal> {
    let (start, length) = (table.as_ptr(), table.len());
    // SAFETY: both calls read `length` bytes from `start`, and the slice lends just these for the length of a call.
    unsafe { verdict(c::bil_check_code(start, length), || c::bil_check_place(start, length)) }
}

/// The seal check of a table: whether no sealed value gets out. Any bytes may be asked about.
///
/// # Errors
/// The first of refusals 1 to 15.
pub fn seal_check(table: &[u8]) -> Result<(), Refusal> {
    let (start, length) = (table.as_ptr(), table.len());
    // SAFETY: as for `check`.
    unsafe { verdict(c::bil_seal_code(start, length), || c::bil_seal_place(start, length)) }
}

/// What a binary operation on words of 1 to 64 bits gives.
#[derive(Clone, Copy, Debug, PartialEq, Eq)]
#[must_use = "an operation on words does nothing but give its answer"]
pub enum Word {
    /// A word of the operands' width, or of one bit for a comparison.
    Known(u64),
    /// Division by zero.
    Unknown,
    /// A width that is not 1 to 64, or an operand that doesn't fit it.
    Bad,
}

/// A binary operation on two words of a width. Any numbers may be asked about: bad ones give [`Word::Bad`].
pub fn word(sub: Sub, width: u32, a: u64, b: u64) -> Word {
    let sub = sub as u32;
    // SAFETY: the call takes numbers alone, and every number is allowed.
    match unsafe { c::bil_word_kind(sub, width, a, b) } {
        // SAFETY: as for the kind.
        1 => Word::Known(unsafe { c::bil_word_value(sub, width, a, b) }),
        2 => Word::Unknown,
        _ => Word::Bad,
    }
}

/// What a variable holds. Its text is the one that bilrun prints.
#[derive(Clone, Copy, Debug, PartialEq, Eq)]
pub enum Value {
    /// It was never written.
    Absent,
    /// A word, below 2^width.
    Word(u64),
    /// It is not known.
    Unknown,
    /// A memory, by the newest entry of the log that belongs to it.
    Memory(u64),
}

impl fmt::Display for Value {
    fn fmt(&self, f: &mut fmt::Formatter) -> fmt::Result {
        match self {
            Value::Absent => write!(f, "absent"),
            Value::Word(n) => write!(f, "word {n}"),
            Value::Unknown => write!(f, "unknown"),
            Value::Memory(head) => write!(f, "memory {head}"),
        }
    }
}

/// A start, and what a run leaves: the state, the log and the next address. A run goes on from what the one before left.
#[derive(Clone, Debug, PartialEq, Eq)]
pub struct Machine {
    state: Vec<[u64; 2]>,
    log: Vec<[u64; 4]>,
    log_count: usize,
    next: u64,
}

/// How a run ended.
#[derive(Clone, Copy, Debug, PartialEq, Eq)]
#[must_use = "a run may be refused, or stop"]
pub enum Ending {
    /// It came to the table's end.
    Done,
    /// Refused: nothing ran, and the machine is as it was.
    Refused(Refusal),
    /// Stopped at a statement, whose number is the place: what the run had done till then stays done.
    Stopped(Stop, u32),
}

impl fmt::Display for Ending {
    fn fmt(&self, f: &mut fmt::Formatter) -> fmt::Result {
        match self {
            Ending::Done => write!(f, "done"),
            Ending::Refused(refusal) => write!(f, "{refusal}"),
            Ending::Stopped(stop, place) => write!(f, "stopped by {} at statement {place}: {stop}", *stop as u32),
        }
    }
}

impl Machine {
    /// All variables absent, an empty log with room for so many entries, next address 0. A run takes just as many
    /// variables as its table has, and room for at most 65,536 entries.
    ///
    /// # Panics
    /// Where there can't be so much memory.
    #[must_use]
    pub fn new(variables: usize, entries: usize) -> Machine {
        Machine { state: vec![[0; 2]; variables], log: vec![[0; 4]; entries], log_count: 0, next: 0 }
    }

    /// As `new`, with as many variables as an accepted table has.
    ///
    /// # Errors
    /// The table's refusal where the check doesn't accept it.
    ///
    /// # Panics
    /// As `new`.
    pub fn for_table(table: &[u8], entries: usize) -> Result<Machine, Refusal> {
        check(table)?;
        let variables = u16::from_le_bytes([table[4], table[5]]); // at most 256 where the table is accepted
        Ok(Machine::new(variables.into(), entries))
    }

    /// The machine with this next address. Whether the table has such addresses is for the run to say, by refusal 16.
    #[must_use]
    pub fn with_next(self, next: u64) -> Machine {
        Machine { next, ..self }
    }

    /// The machine with these as entries 1 to n of its log, each previous entry, address width, address and byte (256:
    /// unknown), in place of those that it had. Where the room is less than n it grows to n. Whether they keep the log's
    /// rules is for the run to say, by refusals 16 and 17.
    #[must_use]
    pub fn with_entries(self, entries: &[[u64; 4]]) -> Machine {
        let mut log = entries.to_vec();
        log.resize(entries.len().max(self.log.len()), [0; 4]);
        Machine { log, log_count: entries.len(), ..self }
    }

    /// Puts a value into a variable. Whether the variable may have it is for the run to say, by refusal 18.
    ///
    /// # Panics
    /// Where there is no such variable.
    pub fn set(&mut self, variable: usize, value: Value) {
        let variables = self.state.len();
        let pair = self.state.get_mut(variable);
        *pair.unwrap_or_else(|| panic!("there is no variable {variable}: the machine has {variables}")) = match value {
            Value::Absent => [0, 0],
            Value::Word(n) => [1, n],
            Value::Unknown => [2, 0],
            Value::Memory(head) => [3, head],
        };
    }

    /// What a variable holds; none where there is no such variable.
    #[must_use]
    pub fn get(&self, variable: usize) -> Option<Value> {
        match *self.state.get(variable)? {
            [0, _] => Some(Value::Absent),
            [1, n] => Some(Value::Word(n)),
            [2, _] => Some(Value::Unknown),
            [3, head] => Some(Value::Memory(head)),
            [kind, _] => unreachable!("a run leaves no pair of kind {kind}"),
        }
    }

    /// The next address.
    #[must_use]
    pub fn next(&self) -> u64 {
        self.next
    }

    /// The entries of the log, from entry 1 on: previous entry, address width, address, byte (256: unknown).
    #[must_use]
    pub fn entries(&self) -> &[[u64; 4]] {
        &self.log[..self.log_count]
    }

    /// Runs a table, for at most so many ticks: how it ended, and the ticks that it took. Any bytes may be run, from any
    /// start: bad ones are refused.
    ///
    /// # Panics
    /// Where the library answers by a number that its rules don't have.
    #[must_use = "a run may be refused, or stop"]
    pub fn run(&mut self, table: &[u8], budget: u32) -> (Ending, u32) {
        let mut out = [0; 5];
        // SAFETY: each pointer goes with the size of its own buffer, a pair being two numbers and an entry four. `self` and
        // `out` are borrowed mutably, so that the three buffers share nothing with each other or with the table, and no one
        // else uses them during the call.
        let wrote = unsafe {
            c::bil_run(
                table.as_ptr(),
                table.len(),
                self.state.as_mut_ptr().cast(),
                2 * self.state.len(),
                self.log.as_mut_ptr().cast(),
                4 * self.log.len(),
                self.log_count as u64,
                self.next,
                budget,
                out.as_mut_ptr(),
                out.len(),
            )
        };
        assert_eq!(wrote, 1, "five numbers were lent, so they are written");
        let [code, place, ticks, log_count, next] = out;
        self.log_count = usize::try_from(log_count).expect("a log has no more entries than it has room for");
        self.next = next;
        let [code, place, ticks] = [code, place, ticks].map(|n| u32::try_from(n).expect("each is below 2^32"));
        let ending = match code {
            0 => Ending::Done,
            1..=18 => Ending::Refused(Refusal { code: Code::of(code), place }),
            _ => Ending::Stopped(Stop::of(code), place),
        };
        (ending, ticks)
    }
}
