//! Name lists and reports that are not as they have to be.

use crate::files::{byte_but, name, row, unlisted, zeros, Row};
use second::random::Random;

/// A row of a name that is listed.
fn of_listed(random: &mut Random, names: &[Vec<u8>], rows: &[Row]) -> Option<usize> {
    let places: Vec<usize> = (0..rows.len()).filter(|&i| names.contains(&rows[i].name)).collect();
    (!places.is_empty()).then(|| places[random.below(places.len())])
}

/// 14: a name has no row, or several, which may say the same.
pub fn spoil_rows(random: &mut Random, names: &[Vec<u8>], rows: &mut Vec<Row>) {
    let Some(place) = of_listed(random, names, rows) else { return };
    let mut copy = rows[place].clone();
    match random.below(6) {
        0 | 1 => drop(rows.remove(place)),
        2 => rows[place].name = unlisted(random, names),
        3 if random.once_in(4) => rows.clear(),
        3 | 4 => {
            if random.once_in(2) {
                copy = row(random, &copy.name);
            }
            rows.insert(random.below(rows.len() + 1), copy);
        }
        _ => (0..2 + random.below(3)).for_each(|_| rows.push(copy.clone())),
    }
}

/// Digits of a number above 65,535: just above, or one of which a small number is left in fewer bits.
fn large_count(random: &mut Random) -> String {
    let small = random.below(65_536) as u128;
    let number = match random.below(8) {
        0 | 1 => 65_536,
        2 => 65_537 + random.below(600_000) as u128,
        3..=5 => (1 << [16, 17, 31, 32, 63, 64, 100][random.below(7)]) + small,
        6 => 10u128.pow(5 + random.below(30) as u32) + small,
        _ => return "123456789".repeat(1 + random.below(15)),
    };
    zeros(random) + &number.to_string()
}

fn not_digits(random: &mut Random, count: &[u8]) -> Vec<u8> {
    let mut count = count.to_vec();
    let place = random.below(count.len() + 1);
    let byte = match random.below(3) {
        0 => byte_but(random, b"\t\n0123456789"),
        _ => b" +-./:;,xeA_\r\0"[random.below(14)],
    };
    if random.once_in(2) || place == count.len() {
        count.insert(place, byte);
    } else {
        count[place] = byte;
    }
    count
}

fn other_qualifier(random: &mut Random) -> &'static [u8] {
    const OTHERS: [&[u8]; 18] = [
        b"dynamic",
        b"dynamic",
        b"dynamic",
        b"dynamic",
        b"dynamic,bounded",
        b"bounded",
        b"",
        b"s",
        b"stati",
        b"statics",
        b"Static",
        b"STATIC",
        b"static ",
        b" static",
        b"static\0",
        b"static,bounded",
        b"static\r",
        b"static\r",
    ];
    OTHERS[random.below(OTHERS.len())]
}

/// A line that differs from that of a row in one thing, for which it is refused.
pub fn wrong_line(random: &mut Random, row: &Row) -> Vec<u8> {
    let Row { place, name, count } = row;
    let join = |parts: &[&[u8]]| parts.concat();
    let no_colon: Vec<u8> = place.iter().copied().filter(|&byte| byte != b':').collect();
    let long = [&name[..], &[b'n'; 65]].concat();
    let many = 65 + random.once_in(2) as usize * random.below(name.len() + 1);
    match random.below(14) {
        0 => Vec::new(),
        1 => join(&[&no_colon, name, b"\t", count, b"\tstatic"]),
        2 => {
            let tails: [&[u8]; 3] = [b"\t:f\t7\tstatic", b"\t:7\tstatic", b"\t7\tstatic:"];
            join(&[&no_colon, name, tails[random.below(3)]])
        }
        3 => join(&[place, b"\t", count, b"\tstatic"]),
        4 => join(&[place, &long[..many], b"\t", count, b"\tstatic"]),
        5 => join(&[place, name, [&b" "[..], b""][random.below(2)], count, b" static"]),
        6 => {
            let (first, second) = [(&b"\t"[..], &b""[..]), (b"\t", b" "), (b" ", b"\t")][random.below(3)];
            join(&[place, name, first, count, second, b"static"])
        }
        7 => {
            let (front, back) = place.split_at(random.below(place.len() + 1));
            join(&[front, b"\t", back, name, b"\t", count, b"\tstatic"])
        }
        8 => {
            let (middle, end) = [(&b"\t\t"[..], &b""[..]), (b"\t", b"\t"), (b"\t", b"\tstatic")][random.below(3)];
            join(&[place, name, b"\t", count, middle, b"static", end])
        }
        9 => join(&[place, name, b"\t\tstatic"]),
        10 => join(&[place, name, b"\t", &not_digits(random, count), b"\tstatic"]),
        11 => join(&[place, name, b"\t", count, b"\t", other_qualifier(random)]),
        _ => join(&[place, name, b"\t", large_count(random).as_bytes(), b"\tstatic"]),
    }
}

/// 13: a line too many or too few, or one that is no name.
pub fn spoil_names(random: &mut Random, names: &mut Vec<Vec<u8>>) {
    let at = random.below(names.len() + 1);
    match random.below(8) {
        0 => {
            let more = if random.once_in(4) { 1 + random.below(300) } else { 1 };
            names.extend(vec![name(random); more]);
        }
        1 => names.truncate(names.len().saturating_sub(1 + random.below(2))),
        2 if random.once_in(2) => names.clear(),
        2 => names.insert(at, Vec::new()),
        _ if at == names.len() => drop(names.pop()),
        3 => names.insert(at, names[at].clone()),
        4 => names[at].clear(),
        5 => names[at].resize(65 + random.once_in(2) as usize * random.below(200), b'n'),
        6 => names[at].insert(0, [b'\t', b':'][random.below(2)]),
        _ => names[at].push([b'\t', b':'][random.below(2)]),
    }
}

/// A change of a file's bytes: where lines end, or any.
pub fn spoil_bytes(random: &mut Random, file: &mut Vec<u8>) {
    let at = random.below(file.len() + 1);
    match random.below(8) {
        0 | 1 => drop(file.pop()),
        2 => file.truncate(at),
        3 => file.push([b'f', 0, b'\n'][random.below(3)]),
        4 => file.insert(at, b'\n'),
        5 => *file = file.iter().flat_map(|&byte| if byte == b'\n' { vec![b'\r', byte] } else { vec![byte] }).collect(),
        _ if at == file.len() => file.extend(b":f\t7\tstatic"),
        6 => file[at] = b"\t:\n0s "[random.below(6)],
        _ => file[at] = random.next() as u8,
    }
}
