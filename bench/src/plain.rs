//! The frames of a report by plain code with a hash map, and a table's edges in order by a sort, as one would write both without a proof. Each makes all
//! checks that the call makes.

use second::random::record;
use second::table::{check, check_free, Refusal};
use std::collections::HashMap;

/// A line without its line feed, and what stands behind it, if there is a line feed.
fn next_line(file: &[u8]) -> Option<(&[u8], &[u8])> {
    let end = file.iter().position(|&byte| byte == b'\n')?;
    Some((&file[..end], &file[end + 1..]))
}

fn is_name(bytes: &[u8]) -> bool {
    (1..=64).contains(&bytes.len()) && !bytes.iter().any(|&byte| byte == b'\t' || byte == b':')
}

/// The name and the count of a line of the report that is of its form.
fn row(line: &[u8]) -> Option<(&[u8], u16)> {
    let mut parts = line.split(|&byte| byte == b'\t');
    let (place_and_name, digits, qualifier) = (parts.next()?, parts.next()?, parts.next()?);
    let colon = place_and_name.iter().rposition(|&byte| byte == b':')?;
    let name = &place_and_name[colon + 1..];
    if parts.next().is_some() || !is_name(name) || qualifier != b"static" || digits.is_empty() {
        return None;
    }
    let mut count: u32 = 0;
    for &digit in digits {
        if !digit.is_ascii_digit() {
            return None;
        }
        count = 10 * count + u32::from(digit - b'0');
        if count > 65_535 {
            return None;
        }
    }
    Some((name, count as u16))
}

/// The listed names, in the order of the functions.
fn listed(mut file: &[u8], functions: usize) -> Result<Vec<&[u8]>, Refusal> {
    let mut names = Vec::new();
    for f in 0..functions {
        let (name, rest) = next_line(file).filter(|(name, _)| is_name(name)).ok_or((13, f))?;
        names.push(name);
        file = rest;
    }
    if file.is_empty() {
        Ok(names)
    } else {
        Err((13, functions))
    }
}

/// Of each listed name how many lines it has, and the count of the last one.
fn counted<'a>(names: &[&'a [u8]], mut report: &[u8]) -> Result<HashMap<&'a [u8], (usize, u16)>, Refusal> {
    let mut found: HashMap<&[u8], (usize, u16)> = names.iter().map(|&name| (name, (0, 0))).collect();
    let mut place = names.len();
    while !report.is_empty() {
        let (line, rest) = next_line(report).ok_or((13, place))?;
        let (name, count) = row(line).ok_or((13, place))?;
        if let Some(times) = found.get_mut(name) {
            *times = (times.0 + 1, count);
        }
        (report, place) = (rest, place + 1);
    }
    Ok(found)
}

/// Writes the counts of a report into the frames of a table.
pub fn frames(table: &mut [u8], names: &[u8], report: &[u8]) -> Result<(), Refusal> {
    let names = listed(names, check(table)?.functions.len())?;
    let found = counted(&names, report)?;
    if let Some(f) = names.iter().position(|name| found[name].0 != 1) {
        return Err((14, f));
    }
    for (f, name) in names.iter().enumerate() {
        table[8 * f + 6..8 * f + 8].copy_from_slice(&found[name].1.to_le_bytes());
    }
    Ok(())
}

/// Writes a table with its edges in order, each once, and gives the length.
pub fn ordered(table: &[u8], out: &mut [u8]) -> Result<usize, Refusal> {
    let program = check_free(table)?;
    let front = 8 * (program.functions.len() + program.nodes.len());
    let mut edges = program.edges;
    edges.sort_unstable();
    edges.dedup();
    let length = front + 8 * edges.len();
    let out = out.get_mut(..length).ok_or((11, length))?;
    out[..front].copy_from_slice(&table[..front]);
    for (place, (from, to)) in out[front..].chunks_exact_mut(8).zip(edges) {
        place.copy_from_slice(&record(3, 0, from, to, 0));
    }
    Ok(length)
}

#[cfg(test)]
mod tests {
    use super::*;
    use crate::{report, tables};

    /// As the second implementation, and the tables are such that there is something to do.
    #[test]
    fn plain_order_is_right() {
        for table in tables::free_tables() {
            let new = second::ordered::ordered(&table.bytes, 12_800).expect("a table");
            assert!(new != table.bytes && check(&new).is_ok() && check(&table.bytes).is_err());
            let mut out = vec![9; 12_800];
            assert_eq!(ordered(&table.bytes, &mut out), Ok(new.len()));
            assert!(out[..new.len()] == new && out[new.len()..].iter().all(|&byte| byte == 9));
            assert_eq!(ordered(&table.bytes, &mut out[..new.len() - 1]), Err((11, new.len())));
            assert_eq!(ordered(&table.bytes[1..], &mut out).map_err(|(number, _)| number), Err(1));
        }
    }

    fn of(names: &str, report: &str) -> Result<Vec<u8>, Refusal> {
        let mut table = tables::case_a().bytes;
        frames(&mut table, names.as_bytes(), report.as_bytes()).map(|()| table)
    }

    /// As the second implementation.
    #[test]
    fn plain_code_is_right() {
        let names = "main\nfan\ntray\n";
        let report = ":main\t1\tstatic\n:fan\t258\tstatic\n:tray\t65535\tstatic\n:other\t0\tstatic\n";
        for cut in 0..report.len() {
            let (names_cut, report_cut) = (&names[..cut.min(names.len())], &report[..cut]);
            let spoiled = report.replacen(&report[cut..=cut], ":", 1);
            for (names, report) in [(names, report), (names_cut, report), (names, report_cut), (names, &spoiled)] {
                let expected = second::frames::frames(&tables::case_a().bytes, names.as_bytes(), report.as_bytes());
                assert_eq!(of(names, report), expected, "{names:?} {report:?}");
            }
        }
        assert_eq!(of("main\nfan\ntray\n\n", report), Err((13, 3)));
        assert_eq!(of(names, &(report.to_string() + report)), Err((14, 0)));
    }

    #[test]
    fn lines_are_as_said() {
        let report::Files { names, report } = report::files();
        assert_eq!(names.split_inclusive(|&byte| byte == b'\n').count(), report::LISTED);
        assert_eq!(report.split_inclusive(|&byte| byte == b'\n').count(), report::LINES);
        let mut table = tables::full_size("full size", false).bytes;
        assert_eq!(frames(&mut table, &names, &report), Ok(()));
    }
}
