//! Files for a table of two functions, and what they give, worked out by hand.

use crate::reports::table;
use crate::Frames;
use programs::ends::{fails, gives, refuses};
use programs::failures::TABLE;

/// The program takes reports of up to so many bytes, and says so of longer ones.
pub const MOST: usize = 4 << 20;

/// A line of a name that is not listed, of 16 bytes: a report of such lines that is cut where many a buffer ends is one
/// that is accepted.
pub const SPARE: &str = ":spare\t7\tstatic\n";

/// A report with just as many bytes as there may be, in lines of 16.
pub fn longest() -> String {
    let two = ":main\t08\tstatic\n:leaf\t07\tstatic\n";
    two.to_string() + &SPARE.repeat((MOST - two.len()) / SPARE.len())
}

/// The table with these frames of its two functions.
fn with_frames(frames: [u16; 2]) -> Vec<u8> {
    let mut table = TABLE.to_vec();
    for (f, frame) in frames.iter().enumerate() {
        table[8 * f + 6..8 * f + 8].copy_from_slice(&frame.to_le_bytes());
    }
    table
}

const NAMES: &str = "main\nleaf\n";

/// Name lists and reports with the frames that they give.
fn accepted() -> Vec<(String, String, [u16; 2])> {
    let two = ":leaf\t7\tstatic\n:main\t65535\tstatic\n";
    let long = "n".repeat(64);
    let last = "src/main.c:3:5:main\t258\tstatic\n:leaf\t0\tstatic\n";
    let spare = SPARE.repeat((MOST - last.len()) / SPARE.len());
    vec![
        (NAMES.into(), two.into(), [65_535, 7]),
        ("leaf\nmain\n".into(), two.into(), [7, 65_535]),
        ("leaf\nleaf\n".into(), two.into(), [7, 7]),
        (NAMES.into(), "a b::c:main\t00258\tstatic\n:\r\t9\tstatic\nC:\\leaf.c:9:leaf\t0\tstatic\n".into(), [258, 0]),
        (format!("{long}\nleaf\n"), format!("{two}:{long}\t10\tstatic\n"), [10, 7]),
        (NAMES.into(), format!("{two}{}:x\t{}7\tstatic\n", "deep/".repeat(9_999), "0".repeat(9_999)), [65_535, 7]),
        // About as long as may be, with the lines that count behind all others
        (NAMES.into(), spare + last, [258, 0]),
        (NAMES.into(), longest(), [8, 7]),
    ]
}

/// Tables, name lists and reports with what they are refused for.
fn refused() -> Vec<(Vec<u8>, String, String, u32, usize)> {
    let (main, leaf) = (":main\t8\tstatic\n", ":leaf\t7\tstatic\n");
    let of_table = |table: &[u8], number, place| (table.to_vec(), String::new(), "\n".to_string(), number, place);
    let of_files =
        |names: &str, report: &str, number, place| (TABLE.to_vec(), names.into(), report.into(), number, place);
    let both = main.to_string() + leaf;
    vec![
        of_table(&[], 5, 0),
        of_table(&TABLE[..13], 1, 1),
        of_table(&[0; 8], 2, 0),
        of_table(&TABLE[8..], 5, 0),
        of_table(&TABLE[..16], 6, 0),
        // The last edge twice, and no name list: the table goes first
        of_table(&[&TABLE[..], &TABLE[64..]].concat(), 15, 9),
        of_files("", &both, 13, 0),
        of_files("main\n", &both, 13, 1),
        of_files("main\nleaf", &both, 13, 1),
        of_files("main\nleaf\n\n", &both, 13, 2),
        of_files(&format!("main\n{}\n", "n".repeat(65)), &both, 13, 1),
        of_files("a.c:main\nleaf\n", &both, 13, 0),
        of_files("main\tx\nleaf\n", &both, 13, 0),
        of_files(NAMES, "\n", 13, 2),
        of_files(NAMES, ":\t8\tstatic\n", 13, 2),
        of_files(NAMES, ":main\t\tstatic\n", 13, 2),
        of_files(NAMES, ":main\t8x\tstatic\n", 13, 2),
        of_files(NAMES, ":main\tstatic\n", 13, 2),
        of_files(NAMES, ":main\t8\tstatic\tx\n", 13, 2),
        of_files(NAMES, "src\t:main\t8\tstatic\n", 13, 2),
        of_files(NAMES, &both[..both.len() - 1], 13, 3),
        of_files(NAMES, &(both.clone() + "spare\t7\tstatic\n"), 13, 4),
        of_files(NAMES, &(both.clone() + ":spare\t65536\tstatic\n"), 13, 4),
        of_files(NAMES, &(both.clone() + ":spare\t7\tstatic\r\n"), 13, 4),
        of_files(NAMES, &(SPARE.repeat(100_000) + ":spare\t7\tdynamic\n" + &both), 13, 100_002),
        of_files(NAMES, "", 14, 0),
        of_files(NAMES, main, 14, 1),
        of_files(NAMES, &(both.clone() + leaf), 14, 1),
        of_files(NAMES, &(both + main + leaf), 14, 0),
    ]
}

/// The end of a text that may be long.
fn end_of(text: &str) -> String {
    text[text.len().saturating_sub(60)..].escape_debug().to_string()
}

/// The longest name list there is: it is read to its end. With a line more it is refused, or said to be too long.
fn hold_longest_names(frames: &Frames) -> Result<usize, String> {
    let names: String = (0..64).map(|f| format!("{f:064}\n")).collect();
    let report: String = (0..64).map(|f| format!(":{f:064}\t{}\tstatic\n", 65_535 - f)).collect();
    let mut expected = table(64);
    for f in 0..64 {
        expected[8 * f + 6..8 * f + 8].copy_from_slice(&(65_535 - f as u16).to_le_bytes());
    }
    let output = frames.of_files(&table(64), names.as_bytes(), report.as_bytes())?;
    gives(&output, &expected).map_err(|text| format!("64 names of 64 bytes: {text}"))?;
    let output = frames.of_files(&table(64), (names + "x\n").as_bytes(), report.as_bytes())?;
    let end = refuses(&output, 13, 64).or_else(|_| fails(&output));
    end.map_err(|text| format!("a name after 64 of 64 bytes: {text}"))?;
    Ok(2)
}

/// How many runs there were.
pub fn hold(frames: &Frames) -> Result<usize, String> {
    for (names, report, of_functions) in accepted() {
        let output = frames.of_files(&TABLE, names.as_bytes(), report.as_bytes())?;
        let of_files = |text| format!("names {names:?}, report up to {}: {text}", end_of(&report));
        gives(&output, &with_frames(of_functions)).map_err(of_files)?;
    }
    for (table, names, report, number, place) in refused() {
        let output = frames.of_files(&table, names.as_bytes(), report.as_bytes())?;
        let of_files = |text| {
            format!("{} bytes of a table, names {names:?}, report up to {}: {text}", table.len(), end_of(&report))
        };
        refuses(&output, number, place).map_err(of_files)?;
    }
    Ok(accepted().len() + refused().len() + hold_longest_names(frames)?)
}

#[cfg(test)]
mod tests {
    use super::*;

    /// The longest report is about as long as may be.
    #[test]
    fn the_longest_report() {
        let longest = accepted().into_iter().map(|(_, report, _)| report.len()).max().expect("a report");
        assert_eq!(longest, MOST);
        assert_eq!((SPARE.len(), MOST % SPARE.len()), (16, 0));
    }

    #[test]
    fn frames_stand_in_the_table() {
        assert_eq!(with_frames([16, 10]), TABLE);
        assert_eq!(with_frames([258, 0])[..16], [1, 1, 0, 0, 2, 0, 2, 1, 1, 0, 3, 0, 3, 0, 0, 0]);
    }
}
