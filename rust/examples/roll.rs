//! roll TABLE: both verdicts on the table of a file, its run from all variables absent, and what the variables then hold.
//!
//!     cargo run --example roll -- ../examples/packet_little.table
//!
//! Where the file can't be read, a verdict refuses the table, the run doesn't come to its end or the lines can't be written,
//! it says so on standard error and ends with 1; where not just one file is named it ends with 2.

use bil::{check, seal_check, Ending, Machine};
use std::error::Error;
use std::io::{self, Write};
use std::path::{Path, PathBuf};
use std::process::ExitCode;
use std::{env, fs};

const ENTRIES: usize = 2048;
const BUDGET: u32 = 10_000;

/// Prints what comes of a table; the error is what keeps more from coming.
fn roll(name: &Path) -> Result<(), Box<dyn Error>> {
    let mut out = io::stdout().lock();
    let table = fs::read(name)?;
    check(&table)?;
    writeln!(out, "check: accepted")?;
    seal_check(&table)?;
    writeln!(out, "seal check: clean")?;
    let mut machine = Machine::for_table(&table, ENTRIES)?;
    let (ending, ticks) = machine.run(&table, BUDGET);
    writeln!(out, "run: {ticks} ticks, {ending}")?;
    let mut variable = 0;
    while let Some(value) = machine.get(variable) {
        writeln!(out, "variable {variable}: {value}")?;
        variable += 1;
    }
    match ending {
        Ending::Done => Ok(()),
        _ => Err(ending.to_string().into()),
    }
}

fn main() -> ExitCode {
    let names: Vec<PathBuf> = env::args_os().skip(1).map(PathBuf::from).collect();
    if let [name] = names.as_slice() {
        return match roll(name) {
            Ok(()) => ExitCode::SUCCESS,
            Err(why) => {
                eprintln!("roll: {}: {why}", name.display());
                ExitCode::FAILURE
            }
        };
    }
    eprintln!("usage: roll TABLE");
    ExitCode::from(2)
}
