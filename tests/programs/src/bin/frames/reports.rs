//! What GCC wrote of C files, read here in another way than by the program.

use crate::Frames;
use programs::ends::{gives, refuses};
use std::fs;
use std::path::Path;

/// What a report says of a function: its name, the count as it stands there, and the qualifier.
type Row = [String; 3];

fn text(path: &Path) -> Result<String, String> {
    fs::read_to_string(path).map_err(|error| format!("{}: {error}", path.display()))
}

/// The rows of a report whose names have no space and no colon.
fn rows(report: &str) -> Result<Vec<Row>, String> {
    let row = |line: &str| {
        let words: Vec<&str> = line.split_whitespace().collect();
        let [place_and_name, count, qualifier] = words[..] else { return Err(format!("no line of a report: {line}")) };
        let name = place_and_name.rsplit(':').next().expect("a piece");
        Ok([name, count, qualifier].map(str::to_string))
    };
    report.lines().map(row).collect()
}

/// A table of so many functions of a node each, with the lower frames and node numbers of two bytes.
pub fn table(functions: usize) -> Vec<u8> {
    let functions = 0..functions as u8;
    let records = functions.clone().map(|f| [1, (f == 0) as u8, f, 0, f, 0, 0xA0 + f, 0x5A]);
    records.chain(functions.map(|f| [2, 0, f, 0, 0, 0, 0, 0])).flatten().collect()
}

/// The table with the counts of these names in its frames.
fn expected(mut table: Vec<u8>, names: &str, rows: &[Row]) -> Result<Vec<u8>, String> {
    for (f, name) in names.lines().enumerate() {
        let [_, count, _] = rows.iter().find(|row| row[0] == name).ok_or(format!("no row of {name}"))?;
        let frame: u16 = count.parse().map_err(|error| format!("{name}, {count}: {error}"))?;
        table[8 * f + 6..8 * f + 8].copy_from_slice(&frame.to_le_bytes());
    }
    Ok(table)
}

/// An error if a report would not show what it is there for: several counts, one of two bytes, and another name.
fn is_telling(names: &str, rows: &[Row]) -> Result<(), String> {
    let mut counts: Vec<&str> = rows.iter().map(|row| &row[1][..]).collect();
    counts.sort();
    counts.dedup();
    let is_other = rows.iter().any(|row| !names.lines().any(|name| name == row[0]));
    let is_large = counts.iter().any(|count| count.parse::<u16>().is_ok_and(|count| count > 255));
    if counts.len() < 3 || !is_large || !is_other || rows.iter().any(|row| row[2] != "static") {
        return Err(format!("the report shows too little: {rows:?}"));
    }
    Ok(())
}

/// The frames that GCC wrote of some functions.
fn hold_frames(frames: &Frames, names: &str, report: &str) -> Result<(), String> {
    let rows = rows(report)?;
    is_telling(names, &rows)?;
    let table = table(names.lines().count());
    let output = frames.of_files(&table, names.as_bytes(), report.as_bytes())?;
    gives(&output, &expected(table, names, &rows)?)
}

/// A report with a function whose frame is not fixed is refused for its line, which stands behind those of the names.
fn hold_dynamic(frames: &Frames, names: &str, report: &str) -> Result<(), String> {
    let is_dynamic = |row: &Row| row[2].starts_with("dynamic");
    let line = rows(report)?.iter().position(is_dynamic).ok_or("no function without a fixed frame")?;
    let functions = names.lines().count();
    refuses(&frames.of_files(&table(functions), names.as_bytes(), report.as_bytes())?, 13, functions + line)
}

/// How many runs there were.
pub fn hold(frames: &Frames, names: &str) -> Result<usize, String> {
    let [control, dynamic] = ["control.su", "dynamic.su"].map(|name| text(&frames.folder.join(name)));
    let (names, control, dynamic) = (text(Path::new(names))?, control?, dynamic?);
    hold_frames(frames, &names, &control).map_err(|text| format!("control.su: {text}"))?;
    let of_dynamic: String = rows(&dynamic)?.iter().map(|row| format!("{}\n", row[0])).collect();
    hold_dynamic(frames, &of_dynamic, &dynamic).map_err(|text| format!("dynamic.su: {text}"))?;
    // Of both files: the function is not one of the names, and all of these have their lines.
    let both = [control, dynamic].concat();
    hold_dynamic(frames, &names, &both).map_err(|text| format!("control.su and dynamic.su: {text}"))?;
    Ok(3)
}

#[cfg(test)]
mod tests {
    use super::*;

    const REPORT: &str = "a.c:1:5:f\t16\tstatic\na.c:9:12:g\t300\tstatic\na.c:12:5:h\t48\tstatic\n";

    #[test]
    fn reports_are_read() {
        assert_eq!(rows(REPORT).unwrap()[1], ["g", "300", "static"]);
        assert!(rows("a.c:1:5:f\t16\n").is_err() && rows("\n").is_err());
    }

    #[test]
    fn frames_are_expected() {
        let new = expected(table(2), "g\nf\n", &rows(REPORT).unwrap()).unwrap();
        assert_eq!(new[..16], [1, 1, 0, 0, 0, 0, 44, 1, 1, 0, 1, 0, 1, 0, 16, 0]);
        assert_eq!(new[16..], table(2)[16..]);
        assert!(expected(table(1), "i\n", &rows(REPORT).unwrap()).is_err());
    }

    #[test]
    fn reports_that_show_too_little() {
        let is_telling = |names, report: &str| is_telling(names, &rows(report).unwrap()).is_ok();
        assert!(is_telling("g\nf\n", REPORT));
        assert!(!is_telling("g\nf\nh\n", REPORT) && !is_telling("g\n", &REPORT.replace("300", "30")));
        assert!(!is_telling("g\n", &REPORT.replace("48", "16")));
        assert!(!is_telling("g\n", &REPORT.replace("48\tstatic", "48\tdynamic")));
    }
}
