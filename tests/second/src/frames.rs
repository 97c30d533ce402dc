//! Document 02, "Frames from the compiler's report": the call that writes the counts of a report into a table's frames.

use crate::table::{check, Refusal};

/// The lines of a file, each without its line feed. What stands behind the last line feed has none, and is `None`:
/// "Every line of both files ends in a line feed."
fn lines(file: &[u8]) -> Vec<Option<&[u8]>> {
    file.split_inclusive(|&byte| byte == b'\n').map(|line| line.strip_suffix(b"\n")).collect()
}

/// "a name is 1 to 64 bytes without tab, colon or line feed"
fn is_name(bytes: &[u8]) -> bool {
    !bytes.is_empty() && bytes.len() <= 64 && !bytes.iter().any(|byte| b"\t:\n".contains(byte))
}

/// What a line of the report says: a name, and the digits of a count.
struct Row<'a> {
    name: &'a [u8],
    count: &'a [u8],
}

/// A line of the report that is of its form, taken without its line feed: "a place that ends in a colon and the
/// function's name, a tab, a byte count in decimal, a tab, and a qualifier".
fn row(line: &[u8]) -> Option<Row<'_>> {
    // "A place holds no tab", and neither does any of the rest: two tabs, and three parts.
    let parts: Vec<&[u8]> = line.split(|&byte| byte == b'\t').collect();
    let [place_and_name, count, qualifier] = parts[..] else { return None };
    // No colon is part of a name, so the place, which "may be the colon alone", ends in the last one.
    let colon = place_and_name.iter().rposition(|&byte| byte == b':')?;
    let name = &place_and_name[colon + 1..];
    // "A count is one or more digits, leading zeros allowed."
    let is_count = !count.is_empty() && count.iter().all(u8::is_ascii_digit);
    // "The qualifier must be `static`, for unlisted names too."
    (is_name(name) && is_count && qualifier == b"static").then_some(Row { name, count })
}

/// "The name found in a report line is returned as a part of that line, taken without its line feed; for a line not of
/// its form that part is empty."
pub fn name_found(line: &[u8]) -> &[u8] {
    row(line).map_or(&[], |row| row.name)
}

/// The number that digits stand for, unless it is "above 65,535".
fn frame(digits: &[u8]) -> Option<u16> {
    let mut number = 0;
    for digit in digits {
        number = 10 * number + u32::from(digit - b'0');
        if number > 65_535 {
            return None;
        }
    }
    Some(number as u16)
}

/// A line of the name list: it is there, ends in a line feed, and is a name.
fn is_name_line(line: Option<&Option<&[u8]>>) -> bool {
    matches!(line, Some(Some(name)) if is_name(name))
}

/// A line of the report that is of its form, with a count that is not too large.
fn is_report_line(line: &Option<&[u8]>) -> bool {
    line.and_then(row).and_then(|row| frame(row.count)).is_some()
}

/// 13: "a line of either file that isn't of its form, a count above 65,535, or a name list with a line too many or too
/// few", place "the first such or missing line, counted from 0 with the name list's lines before those of the report".
fn refusal_13(functions: usize, names: &[u8], report: &[u8]) -> Option<usize> {
    let names = lines(names);
    for line in 0..functions {
        if !is_name_line(names.get(line)) {
            return Some(line);
        }
    }
    if names.len() > functions {
        return Some(functions);
    }
    for (line, of_report) in lines(report).iter().enumerate() {
        if !is_report_line(of_report) {
            return Some(functions + line);
        }
    }
    None
}

/// The counts of a name's lines in the report. "Names match byte for byte."
fn counts(report: &[u8], name: &[u8]) -> Vec<u16> {
    let rows = lines(report).into_iter().flatten().filter_map(row);
    rows.filter(|row| row.name == name).filter_map(|row| frame(row.count)).collect()
}

/// The frame of each function, in number order. 14: "a function with no report line or more than one", place "the
/// function".
fn frames_of(names: &[u8], report: &[u8]) -> Result<Vec<u16>, Refusal> {
    let mut frames = Vec::new();
    for (f, name) in lines(names).into_iter().flatten().enumerate() {
        match counts(report, name)[..] {
            [frame] => frames.push(frame),
            _ => return Err((14, f)),
        }
    }
    Ok(frames)
}

/// The table with the counts in its frames: "The table is altered in its own buffer, and only in its frames." A name
/// list has "one line per function in number order".
pub fn frames(table: &[u8], names: &[u8], report: &[u8]) -> Result<Vec<u8>, Refusal> {
    let functions = check(table)?.functions.len();
    // "Checks, after 1 to 8: 13, [..] 14"
    if let Some(place) = refusal_13(functions, names, report) {
        return Err((13, place));
    }
    let mut altered = table.to_vec();
    for (f, frame) in frames_of(names, report)?.iter().enumerate() {
        // Functions stand first, in records of 8 bytes, and the frame is c of theirs.
        altered[8 * f + 6..8 * f + 8].copy_from_slice(&frame.to_le_bytes());
    }
    Ok(altered)
}
