//! The numbers of the library as enums. A code's text is the one that `docs/FORMAT.md` has for it, to the letter.

use std::fmt;

/// The binary operations, by their numbers; `a` is the left operand and `b` the right one. Signed operations read both in
/// two's complement. The result has the operands' width, save from `Eq` on: these give one bit, 1 for true and 0 for false.
#[derive(Clone, Copy, Debug, PartialEq, Eq)]
#[repr(u32)]
pub enum Sub {
    /// a + b, modulo 2^width.
    Plus = 1,
    /// a − b, modulo 2^width.
    Minus,
    /// a · b, modulo 2^width.
    Times,
    /// The unsigned quotient; unknown by 0.
    Div,
    /// The signed quotient, toward zero; the lowest number by −1 is itself; unknown by 0.
    Sdiv,
    /// The unsigned remainder; unknown by 0.
    Mod,
    /// The signed remainder, with the sign of a; unknown by 0.
    Smod,
    /// Bit by bit.
    And,
    /// Bit by bit.
    Or,
    /// Bit by bit.
    Xor,
    /// a shifted left by b; 0 from the width on.
    Lsl,
    /// a shifted right by b, zeros coming in; 0 from the width on.
    Lsr,
    /// a shifted right by b, the sign coming in; all sign from the width on.
    Asr,
    /// a = b.
    Eq,
    /// a and b differ.
    Neq,
    /// a < b, unsigned.
    Lt,
    /// a ≤ b, unsigned.
    Le,
    /// a < b, signed.
    Slt,
    /// a ≤ b, signed.
    Sle,
}

/// What a place counts, as [`Code::kind`] gives it. Its text is the name in lower case.
#[derive(Clone, Copy, Debug, PartialEq, Eq)]
pub enum Kind {
    /// Nothing: the refusal is of the table as a whole, and its place is 0.
    Whole,
    /// The parts of a start: 0 the state, 1 the log, 2 the log's count, 3 the next address.
    Start,
    /// Variables, from 0.
    Variable,
    /// Expressions, from 0.
    Expression,
    /// Statements, from 0.
    Statement,
    /// Entries of the log, from 1.
    Entry,
}

impl fmt::Display for Kind {
    fn fmt(&self, f: &mut fmt::Formatter) -> fmt::Result {
        f.write_str(match self {
            Kind::Whole => "whole",
            Kind::Start => "start",
            Kind::Variable => "variable",
            Kind::Expression => "expression",
            Kind::Statement => "statement",
            Kind::Entry => "entry",
        })
    }
}

/// The refusals, by their numbers. The text of each says what it means.
#[derive(Clone, Copy, Debug, PartialEq, Eq)]
#[repr(u32)]
pub enum Code {
    /// Too short for a header.
    Short = 1,
    /// The format, or the width of an address.
    Format,
    /// How many variables, expressions or statements there are.
    Count,
    /// The offsets, the total or the length.
    Layout,
    /// A variable's record.
    Variable,
    /// An expression's record.
    Expression,
    /// A statement's record.
    Statement,
    /// How often an expression is used.
    Uses,
    /// How deep an expression is.
    Depth,
    /// How deep a statement is nested.
    Nesting,
    /// Where a let variable is read or bound.
    Scope,
    /// An expression's type.
    Type,
    /// The type of a move, jump or guard.
    StatementType,
    /// An expression gives away what is sealed.
    Seal,
    /// A statement gives away what is sealed.
    StatementSeal,
    /// The sizes and numbers that a run starts from.
    Start,
    /// An entry of the log that a run starts from.
    Entry,
    /// A variable's value that a run starts from.
    Pair,
}

/// Each refusal at its number less 1: what its place counts, and what it says.
const CODES: [(Code, Kind, &str); 18] = [
    (Code::Short, Kind::Whole, "fewer than 32 bytes"),
    (Code::Format, Kind::Whole, "the format is not 1, or A is not 1 to 64"),
    (Code::Count, Kind::Whole, "over 256 variables, over 2,048 expressions, no statement or over 1,024"),
    (Code::Layout, Kind::Whole, "an offset, the total or the length is not what the counts give"),
    (Code::Variable, Kind::Variable, "no variable has such a record"),
    (Code::Expression, Kind::Expression, "no expression has such a record"),
    (Code::Statement, Kind::Statement, "no statement has such a record, or a body ends outside the block around it"),
    (Code::Uses, Kind::Expression, "an expression is used not at all, or more than once"),
    (Code::Depth, Kind::Expression, "an expression over 64 deep"),
    (Code::Nesting, Kind::Statement, "a statement nested over 32 deep"),
    (
        Code::Scope,
        Kind::Expression,
        "a let variable read outside its let's body, or a let inside the body of another of the same variable",
    ),
    (Code::Type, Kind::Expression, "an expression has no type"),
    (Code::StatementType, Kind::Statement, "a move, jump or guard of the wrong type"),
    (
        Code::Seal,
        Kind::Expression,
        "a load or store at a sealed address, or a sealed value bound to an open let variable",
    ),
    (Code::StatementSeal, Kind::Statement, "a sealed value moved to an open variable, a sealed jump or guard"),
    (
        Code::Start,
        Kind::Start,
        "the state is not 2V numbers (place 0); the log is not a multiple of 4 numbers or over 65,536 entries (1); \
         the log's count is over its room (2); the next address is not below 2^A (3)",
    ),
    (Code::Entry, Kind::Entry, "an entry of the log breaks the log's rules"),
    (Code::Pair, Kind::Variable, "a pair that the variable can't have, or a let variable that is not absent"),
];

impl Code {
    /// The refusal of a number, 1 to 18.
    ///
    /// # Panics
    /// Where there is no such refusal: the library gives no other number.
    #[must_use]
    pub fn of(number: u32) -> Code {
        let found = CODES.iter().find(|(code, ..)| *code as u32 == number);
        found.unwrap_or_else(|| panic!("there is no refusal {number}")).0
    }

    /// What a place counts under this refusal.
    #[must_use]
    pub fn kind(self) -> Kind {
        CODES[self as usize - 1].1
    }

    fn text(self) -> &'static str {
        CODES[self as usize - 1].2
    }
}

impl fmt::Display for Code {
    fn fmt(&self, f: &mut fmt::Formatter) -> fmt::Result {
        f.write_str(self.text())
    }
}

/// A refusal, and where. Its text has the code's number, the place and what the code says.
#[derive(Clone, Copy, Debug, PartialEq, Eq)]
#[must_use = "where there is a refusal, nothing was run"]
pub struct Refusal {
    /// What was met first.
    pub code: Code,
    /// Where: the number of what [`Code::kind`] says, the lowest one that the code is of.
    pub place: u32,
}

impl fmt::Display for Refusal {
    fn fmt(&self, f: &mut fmt::Formatter) -> fmt::Result {
        let (number, place, text) = (self.code as u32, self.place, self.code.text());
        match self.code.kind() {
            Kind::Whole => write!(f, "refusal {number}: {text}"),
            Kind::Start => write!(f, "refusal {number}: {}", part(text, place)),
            kind => write!(f, "refusal {number} at {kind} {place}: {text}"),
        }
    }
}

impl std::error::Error for Refusal {}

/// The part of a text that is about a place. A semicolon parts them, and each ends with its place in brackets.
fn part(text: &str, place: u32) -> &str {
    let part = text.split("; ").nth(place as usize).and_then(|part| part.split(" (").next());
    part.unwrap_or("there is no such place")
}

/// The stops, by their numbers. The text of each says what it means.
#[derive(Clone, Copy, Debug, PartialEq, Eq)]
#[repr(u32)]
pub enum Stop {
    /// A guard is unknown.
    Guard = 32,
    /// A jump is unknown.
    Jump,
    /// The log is full.
    LogFull,
    /// The budget is used up.
    NoTick,
    /// Too many bindings. No accepted table comes to it.
    Bindings,
}

/// Each stop at its number less 32, with what it says.
const STOPS: [(Stop, &str); 5] = [
    (Stop::Guard, "a guard is unknown"),
    (Stop::Jump, "a jump is unknown"),
    (Stop::LogFull, "the log is full when a byte is to be appended"),
    (Stop::NoTick, "a tick is needed and none is left"),
    (Stop::Bindings, "a let would put a 65th binding in force"),
];

impl Stop {
    /// The stop of a number, 32 to 36.
    ///
    /// # Panics
    /// Where there is no such stop: the library gives no other number.
    #[must_use]
    pub fn of(number: u32) -> Stop {
        let found = STOPS.iter().find(|(stop, _)| *stop as u32 == number);
        found.unwrap_or_else(|| panic!("there is no stop {number}")).0
    }
}

impl fmt::Display for Stop {
    fn fmt(&self, f: &mut fmt::Formatter) -> fmt::Result {
        f.write_str(STOPS[*self as usize - 32].1)
    }
}
