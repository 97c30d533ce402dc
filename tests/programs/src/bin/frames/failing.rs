//! Files and arguments that are missing or too much, and an input or an output that fails.

use crate::by_hand::{longest, MOST, SPARE};
use crate::Frames;
use programs::ends::{fails, refuses};
use programs::failures::{end, run, FAILURES, TABLE};
use programs::input::Input;

const NAMES: &str = "main\nleaf\n";
/// Of two lines of 16 bytes, as those behind them in the long one.
const REPORT: &str = ":main\t08\tstatic\n:leaf\t07\tstatic\n";

/// How many bytes a report has more than the program takes.
const MORE: usize = 64 << 10;

/// Arguments with which there are not two files to be read.
fn arguments(frames: &Frames) -> Result<Vec<Vec<String>>, String> {
    let (names, report) = (frames.file("names", NAMES.as_bytes())?, frames.file("report", REPORT.as_bytes())?);
    // A part of it would be accepted.
    let long = frames.file("long", (REPORT.to_string() + &SPARE.repeat((MOST + MORE) / SPARE.len())).as_bytes())?;
    // A byte more than there may be.
    let over = frames.file("over", ("a".to_string() + &longest()).as_bytes())?;
    let many = frames.file("many", (NAMES.to_string() + &"x\n".repeat(40_000)).as_bytes())?;
    let none = frames.folder.join("none").display().to_string();
    let folder = frames.folder.display().to_string();
    let missing = [[&names, &none], [&none, &report], [&none, &none], [&names, &folder], [&folder, &report]];
    let too_long = [[&names, &long], [&names, &over], [&many, &report]];
    let mut all = vec![vec![], vec![names.clone()], vec![names.clone(), report.clone(), report.clone()]];
    all.extend(missing.iter().chain(&too_long).map(|pair| pair.map(String::clone).to_vec()));
    Ok(all)
}

fn hold_arguments(frames: &Frames) -> Result<usize, String> {
    let all = arguments(frames)?;
    for arguments in &all {
        let words: Vec<&str> = std::iter::once(frames.program).chain(arguments.iter().map(|word| &word[..])).collect();
        let output = run(&words, "", Input::Whole(&TABLE))?;
        fails(&output).map_err(|text| format!("with {arguments:?}: {text}"))?;
    }
    Ok(all.len())
}

/// No table is so long. It is refused as it would be in any length, or said to be too long.
fn hold_long_tables(frames: &Frames) -> Result<usize, String> {
    for (length, number, place) in [(12_801, 1, 1_600), (12_808, 2, 0), (100_000, 2, 0)] {
        let output = frames.of_files(&vec![0; length], NAMES.as_bytes(), REPORT.as_bytes())?;
        let end = refuses(&output, number, place).or_else(|_| fails(&output));
        end.map_err(|text| format!("a table of {length} bytes: {text}"))?;
    }
    Ok(3)
}

fn hold_failures(frames: &Frames) -> Result<usize, String> {
    let (names, report) = (frames.file("names", NAMES.as_bytes())?, frames.file("report", REPORT.as_bytes())?);
    for failure in &FAILURES {
        let output = end(&[frames.program, &names, &report], failure)?;
        fails(&output).map_err(|text| format!("{}: {text}", failure.what))?;
    }
    Ok(FAILURES.len())
}

/// How many runs there were.
pub fn hold(frames: &Frames) -> Result<usize, String> {
    Ok(hold_arguments(frames)? + hold_long_tables(frames)? + hold_failures(frames)?)
}
