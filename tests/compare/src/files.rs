//! The name list and the report that are handed in with a table: half of the time of their form, with one line for each
//! name.

use crate::input::BEHIND;
use crate::spoiled::{spoil_bytes, spoil_names, spoil_rows, wrong_line};
use second::random::Random;
use second::table::Program;

pub struct Files {
    /// With `BEHIND` bytes more than the call is told.
    pub names: Vec<u8>,
    pub report: Vec<u8>,
    /// What stands behind the table before the call.
    pub behind: [u8; BEHIND],
}

/// What a line of the report says, part by part. The place has its colon.
#[derive(Clone)]
pub struct Row {
    pub place: Vec<u8>,
    pub name: Vec<u8>,
    pub count: Vec<u8>,
}

impl Row {
    pub fn line(&self) -> Vec<u8> {
        [&self.place[..], &self.name, b"\t", &self.count, b"\tstatic"].concat()
    }
}

/// Any byte but these.
pub fn byte_but(random: &mut Random, these: &[u8]) -> u8 {
    loop {
        let byte = random.below(256) as u8;
        if !these.contains(&byte) {
            return byte;
        }
    }
}

/// A byte that may stand in a name.
fn of_name(random: &mut Random) -> u8 {
    byte_but(random, b"\t:\n")
}

pub fn is_name(bytes: &[u8]) -> bool {
    (1..=64).contains(&bytes.len()) && !bytes.iter().any(|byte| b"\t:\n".contains(byte))
}

fn word(random: &mut Random) -> &'static str {
    ["fan", "tray", "turn", "humid", "log", "step", "start", "static"][random.below(8)]
}

/// A name: as a compiler has them, of any bytes, or as long as may be, and then much like others.
pub fn name(random: &mut Random) -> Vec<u8> {
    match random.below(10) {
        0 => vec![of_name(random)],
        1 => (0..1 + random.below(8)).map(|_| of_name(random)).collect(),
        2 => [&[b'n'; 63][..], &[b'a' + random.below(26) as u8]].concat(),
        3 => (0..60 + random.below(5)).map(|_| b'a' + random.below(26) as u8).collect(),
        4 => [" ", "\r", "0", "65536", "static", "main", "f", "ff", "run(int) const"][random.below(9)].into(),
        _ => format!("{}_{}_{}", word(random), word(random), random.below(100)).into(),
    }
}

/// Names for so many functions, now and then with some more than once.
fn listed(random: &mut Random, functions: usize) -> Vec<Vec<u8>> {
    let is_doubled = random.once_in(8);
    let mut names: Vec<Vec<u8>> = Vec::new();
    while names.len() < functions {
        let is_copy = is_doubled && !names.is_empty() && random.once_in(3);
        let new = if is_copy { names[random.below(names.len())].clone() } else { name(random) };
        if is_copy || !names.contains(&new) {
            names.push(new);
        }
    }
    names
}

/// A name that is not listed, often much like one that is.
pub fn unlisted(random: &mut Random, names: &[Vec<u8>]) -> Vec<u8> {
    loop {
        let mut new = name(random);
        if !names.is_empty() && random.below(3) > 0 {
            new = names[random.below(names.len())].clone();
            let place = random.below(new.len());
            match random.below(4) {
                0 => new.push(of_name(random)),
                1 => drop(new.pop()),
                2 => new[place] = of_name(random),
                _ => new[place] ^= 0x20,
            }
        }
        if is_name(&new) && !names.contains(&new) {
            return new;
        }
    }
}

fn place(random: &mut Random) -> Vec<u8> {
    match random.below(12) {
        0 => b":".into(),
        1 => vec![b':'; 1 + random.below(5)],
        2 => format!("C:\\fan control\\{} {}.c:{}:", word(random), word(random), random.below(1000)).into(),
        3 => (0..random.below(20)).map(|_| byte_but(random, b"\t\n")).chain([b':']).collect(),
        4 if random.once_in(40) => format!("{}.c:1:2:", "deep/".repeat(random.below(1500))).into(),
        _ => format!("src/{}/{}.c:{}:{}:", word(random), word(random), random.below(5000), random.below(80)).into(),
    }
}

/// Zeros before a number, mostly none.
pub fn zeros(random: &mut Random) -> String {
    "0".repeat(match random.below(16) {
        0 => 1 + random.below(5),
        1 => 16 + random.below(8),
        2 => random.below(120),
        3 if random.once_in(40) => random.below(6000),
        _ => 0,
    })
}

fn count(random: &mut Random) -> Vec<u8> {
    let number = match random.below(8) {
        0 => 0,
        1 => 65_535 - random.below(2),
        2 => [9, 10, 99, 100, 255, 256, 257, 9_999, 10_000, 32_768][random.below(10)],
        3 | 4 => random.below(65_536),
        _ => 8 * random.below(100),
    };
    (zeros(random) + &number.to_string()).into()
}

pub fn row(random: &mut Random, name: &[u8]) -> Row {
    Row { place: place(random), name: name.to_vec(), count: count(random) }
}

/// A line for each name, and others, mostly a few.
fn rows(random: &mut Random, names: &[Vec<u8>]) -> Vec<Row> {
    let mut each_once = names.to_vec();
    each_once.sort();
    each_once.dedup();
    let others = match random.below(300) {
        0 => 1000 + random.below(1000),
        1..=20 => 20 + random.below(100),
        _ => random.below(6),
    };
    let mut rows: Vec<Row> = each_once.iter().map(|name| row(random, name)).collect();
    for _ in 0..others {
        let name = unlisted(random, names);
        rows.push(row(random, &name));
    }
    random.shuffle(&mut rows);
    rows
}

fn file(lines: &[Vec<u8>]) -> Vec<u8> {
    lines.iter().flat_map(|line| [&line[..], b"\n"].concat()).collect()
}

/// With bytes behind it. A line feed there would end a last piece, if it were read.
fn with_more(random: &mut Random, mut file: Vec<u8>) -> Vec<u8> {
    let more = if random.once_in(2) { *b"\n:f\n" } else { [0; BEHIND].map(|_| random.next() as u8) };
    file.extend(more);
    file
}

/// Files for a table. For one that is refused they are for any number of functions.
pub fn files(random: &mut Random, program: Option<&Program>) -> Files {
    let functions = program.map_or(random.below(10), |p| p.functions.len());
    let mut names = listed(random, functions);
    let mut rows = rows(random, &names);
    // How many faults there are of rows, of lines of the report, of the name list and of bytes.
    let mut faults = [0; 4];
    for _ in 0..[0, 0, 0, 0, 1, 1, 1, 2][random.below(8)] {
        faults[[0, 0, 1, 1, 1, 2, 2, 3][random.below(8)]] += 1;
    }
    (0..faults[0]).for_each(|_| spoil_rows(random, &names, &mut rows));
    let mut lines: Vec<Vec<u8>> = rows.iter().map(Row::line).collect();
    for _ in 0..faults[1].min(rows.len()) {
        let line = random.below(rows.len());
        lines[line] = wrong_line(random, &rows[line]);
    }
    // Seldom so many lines before these that 16 bits do not count them.
    if random.once_in(3_000) {
        let spare = Row { place: b":".into(), name: unlisted(random, &names), count: b"7".into() };
        lines.splice(0..0, vec![spare.line(); 65_536 + random.below(3)]);
    }
    (0..faults[2]).for_each(|_| spoil_names(random, &mut names));
    let (mut names, mut report) = (file(&names), file(&lines));
    for _ in 0..faults[3] {
        let file = if random.once_in(3) { &mut names } else { &mut report };
        spoil_bytes(random, file);
    }
    let (names, report) = (with_more(random, names), with_more(random, report));
    Files { names, report, behind: [0; BEHIND].map(|_| random.next() as u8) }
}

#[cfg(test)]
mod tests {
    use super::*;
    use second::frames::frames;
    use second::random::{record, table, Shape};
    use second::table::check;

    /// Rows as they are made, and files of them, are of their form.
    #[test]
    fn files_are_good() {
        let mut random = Random::new(12);
        for functions in (1..=64).chain(1..=64) {
            let mut records: Vec<[u8; 8]> = (0..functions).map(|f| record(1, 1, f, f, 0)).collect();
            records.extend((0..functions).map(|f| record(2, 0, f, 0, 0)));
            let names = listed(&mut random, functions);
            let lines: Vec<Vec<u8>> = rows(&mut random, &names).iter().map(Row::line).collect();
            assert!(frames(&records.concat(), &file(&names), &file(&lines)).is_ok());
        }
    }

    /// Some files are good, and some are not.
    #[test]
    fn about_half_is_spoiled() {
        let mut random = Random::new(13);
        let mut refused = 0;
        for _ in 0..1_000 {
            let table = table(&mut random, Shape::USUAL);
            let Files { names, report, .. } = files(&mut random, check(&table).ok().as_ref());
            let told = |file: &[u8]| file[..file.len() - BEHIND].to_vec();
            refused += frames(&table, &told(&names), &told(&report)).is_err() as u32;
        }
        assert!((350..600).contains(&refused), "{refused}");
    }
}
