//! Runs listing programs on the tables under data/ and compares all that they print with the listings beside them,
//! which were worked out by hand from documents 01 and 02. Prints how many data sets were run, or the first
//! difference, and then ends with status 1. Arguments: the programs.

mod table;

use std::collections::BTreeSet;
use std::io::{self, ErrorKind, Write};
use std::path::Path;
use std::process::{ChildStdin, Command, Output, Stdio};
use std::time::Duration;

const FOLDER: &str = concat!(env!("CARGO_MANIFEST_DIR"), "/data");

/// How an input is written: pieces of these lengths, each with a pause behind it, and then the rest.
const WAYS: [(&str, &[usize]); 2] = [("at once", &[]), ("in pieces", &[1, 7, 64])];

/// Long enough for a waiting program to read a piece before the next one comes.
const PAUSE: Duration = Duration::from_millis(3);

struct DataSet {
    name: String,
    table: Vec<u8>,
    listing: Vec<u8>,
}

fn read(name: &str, ending: &str) -> Result<Vec<u8>, String> {
    let file = format!("{name}.{ending}");
    std::fs::read(Path::new(FOLDER).join(&file)).map_err(|error| format!("{file}: {error}"))
}

fn data_set(name: &str) -> Result<DataSet, String> {
    let text = String::from_utf8(read(name, "table")?).map_err(|error| format!("{name}.table: {error}"))?;
    let table = table::encode(&text).map_err(|what| format!("{name}.table: {what}"))?;
    Ok(DataSet { name: name.to_string(), table, listing: read(name, "listing")? })
}

/// All data sets by name. A table without a listing is an error, and so is a listing without a table.
fn data_sets() -> Result<Vec<DataSet>, String> {
    let mut names = BTreeSet::new();
    for file in std::fs::read_dir(FOLDER).map_err(|error| format!("{FOLDER}: {error}"))? {
        let file = file.map_err(|error| format!("{FOLDER}: {error}"))?.file_name();
        let file = file.to_string_lossy();
        let name = file.strip_suffix(".table").or(file.strip_suffix(".listing"));
        names.insert(name.ok_or(format!("{file}: neither a table nor a listing"))?.to_string());
    }
    names.iter().map(|name| data_set(name)).collect()
}

fn feed(mut pipe: ChildStdin, mut input: &[u8], pieces: &[usize]) -> io::Result<()> {
    for &length in pieces {
        let (piece, rest) = input.split_at(length.min(input.len()));
        pipe.write_all(piece)?;
        std::thread::sleep(PAUSE);
        input = rest;
    }
    pipe.write_all(input)
}

fn output(program: &str, input: &[u8], pieces: &[usize]) -> io::Result<Output> {
    let mut child = Command::new(program).stdin(Stdio::piped()).stdout(Stdio::piped()).spawn()?;
    let pipe = child.stdin.take().expect("a pipe");
    match feed(pipe, input, pieces) {
        // A program need not read the rest of an input that is too long.
        Err(error) if error.kind() != ErrorKind::BrokenPipe => Err(error),
        _ => child.wait_with_output(),
    }
}

fn shown(line: Option<&&[u8]>) -> String {
    line.map_or("nothing".to_string(), |line| format!("{:?}", String::from_utf8_lossy(line)))
}

/// The first line that differs, with its end.
fn difference(expected: &[u8], found: &[u8]) -> Option<String> {
    if expected == found {
        return None;
    }
    let lines = |text| <[u8]>::split_inclusive(text, |&byte| byte == b'\n').collect::<Vec<_>>();
    let (x, y) = (lines(expected), lines(found));
    let same = x.iter().zip(&y).take_while(|(x, y)| x == y).count();
    let (expected, found) = (shown(x.get(same)), shown(y.get(same)));
    Some(format!("line {}\n  expected: {expected}\n  found: {found}", same + 1))
}

fn compare(program: &str, set: &DataSet) -> Result<(), String> {
    for (way, pieces) in WAYS {
        let at = format!("{program}, {}, input {way}", set.name);
        let output = output(program, &set.table, pieces).map_err(|error| format!("{at}: {error}"))?;
        if let Some(what) = difference(&set.listing, &output.stdout) {
            return Err(format!("{at}: {what}"));
        }
        if !output.status.success() {
            return Err(format!("{at}: {}", output.status));
        }
    }
    Ok(())
}

fn run(programs: &[String]) -> Result<(), String> {
    let sets = data_sets()?;
    if sets.is_empty() || programs.is_empty() {
        return Err("nothing to run".to_string());
    }
    for program in programs {
        sets.iter().try_for_each(|set| compare(program, set))?;
        println!("{program}: {} data sets, each at once and in pieces, no difference", sets.len());
    }
    Ok(())
}

fn main() {
    let programs: Vec<String> = std::env::args().skip(1).collect();
    if let Err(what) = run(&programs) {
        println!("{what}");
        std::process::exit(1);
    }
}

#[cfg(test)]
mod tests {
    use super::*;

    #[test]
    fn a_difference_is_seen() {
        assert_eq!(difference(b"F 0\nS 1\n", b"F 0\nS 1\n"), None);
        let cases: [(&[u8], &str); 4] = [
            (b"F 0\nS 2\n", "line 2\n  expected: \"S 1\\n\"\n  found: \"S 2\\n\""),
            (b"F 0\nS 1", "line 2\n  expected: \"S 1\\n\"\n  found: \"S 1\""),
            (b"F 0\n", "line 2\n  expected: \"S 1\\n\"\n  found: nothing"),
            (b"F 0\nS 1\n\n", "line 3\n  expected: nothing\n  found: \"\\n\""),
        ];
        for (found, text) in cases {
            assert_eq!(difference(b"F 0\nS 1\n", found).as_deref(), Some(text));
        }
    }

    /// `cat` prints what it was fed, so it shows that all of an input arrives, in either way.
    #[test]
    fn the_input_arrives() {
        for length in [0, 1, 8, 72, 5000] {
            let input: Vec<u8> = (0..length).map(|i| (i % 251) as u8).collect();
            for (_, pieces) in WAYS {
                assert_eq!(output("cat", &input, pieces).expect("cat").stdout, input);
            }
        }
    }

    #[test]
    fn another_listing_or_status_fails() {
        let set = |listing: &[u8]| DataSet { name: "x".to_string(), table: vec![65], listing: listing.to_vec() };
        assert_eq!(compare("cat", &set(b"A")), Ok(()));
        assert!(compare("cat", &set(b"B")).is_err());
        assert!(compare("false", &set(b"")).is_err());
    }
}
