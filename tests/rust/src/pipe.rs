//! Asks a driver over its standard input and output.

use std::io::{Read, Write};
use std::process::{Command, Stdio};

/// Runs a command line, lends it all of `input` and gives back all that it writes. The input is written beside the
/// reading, since neither pipe holds it all. A driver that can't be run or doesn't end with 0 is an error.
pub fn ask(command: &[String], input: Vec<u8>) -> Result<Vec<u8>, String> {
    let mut driver = Command::new(&command[0])
        .args(&command[1..])
        .stdin(Stdio::piped())
        .stdout(Stdio::piped())
        .spawn()
        .map_err(|e| format!("cannot run {}: {}", command[0], e))?;
    let mut requests = driver.stdin.take().expect("its standard input is a pipe");
    let mut answers = driver.stdout.take().expect("its standard output is a pipe");
    let writer = std::thread::spawn(move || requests.write_all(&input));
    let mut output = Vec::new();
    answers.read_to_end(&mut output).map_err(|e| format!("cannot read the driver's answers: {}", e))?;
    let written = writer.join().expect("the writer doesn't panic");
    let status = driver.wait().map_err(|e| e.to_string())?;
    if !status.success() {
        return Err(format!("the driver ended with {}", status));
    }
    written.map_err(|e| format!("the driver doesn't read its requests: {}", e))?;
    Ok(output)
}
