//! Runs the program that puts the edges of a table in order: on tables whose outcomes were worked out by hand, and with
//! inputs and outputs that fail. Prints how many runs it was held to, or the first that went wrong, and then ends with
//! status 1. Argument: the program.

mod by_hand;
mod tables;

use programs::conclude;
use programs::ends::fails;
use programs::failures::{end, FAILURES};

/// What was read before a failure is not the table, even where it is one that would be written.
fn hold_failures(program: &str) -> Result<usize, String> {
    for failure in &FAILURES {
        fails(&end(&[program], failure)?).map_err(|text| format!("{}: {text}", failure.what))?;
    }
    Ok(FAILURES.len())
}

fn hold(words: &[String]) -> Result<usize, String> {
    let [program] = words else { return Err("wanted: a program".to_string()) };
    Ok(by_hand::hold(program)? + hold_failures(program)?)
}

fn main() {
    let words: Vec<String> = std::env::args().skip(1).collect();
    conclude(&words, hold(&words));
}
