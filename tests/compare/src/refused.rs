//! Tables that chosen checks of documents 01 and 02 apply to.

use crate::stirred::apply_15;
use second::random::{record, Random, FULL};

pub type Records = Vec<[u8; 8]>;

const FUNCTION: u8 = 1;
const NODE: u8 = 2;

/// The records of a table, without what stands behind the last whole one.
pub fn records(table: &[u8]) -> Records {
    table.chunks_exact(8).map(|r| r.try_into().expect("8 bytes")).collect()
}

/// One of the numbers a, b, c of a record, which are at 2, 4 and 6.
pub fn field(record: &[u8; 8], at: usize) -> usize {
    u16::from_le_bytes([record[at], record[at + 1]]) as usize
}

pub fn set_field(record: &mut [u8; 8], at: usize, number: usize) {
    record[at..at + 2].copy_from_slice(&(number as u16).to_le_bytes());
}

/// How many records of a kind there are.
pub fn count(records: &Records, kind: u8) -> usize {
    records.iter().filter(|r| r[0] == kind).count()
}

/// The place behind the last record of a kind.
fn end(records: &Records, kind: u8) -> usize {
    records.iter().filter(|r| r[0] <= kind).count()
}

/// A record of some sort, the last one rather often.
fn any(random: &mut Random, records: &Records, which: impl Fn(&[u8; 8]) -> bool) -> Option<usize> {
    let places: Vec<usize> = (0..records.len()).filter(|&i| which(&records[i])).collect();
    if random.once_in(3) {
        return places.last().copied();
    }
    (!places.is_empty()).then(|| places[random.below(places.len())])
}

/// Whether it is a node that has a target.
pub fn calls(record: &[u8; 8]) -> bool {
    record[0] == NODE && (record[1] == 1 || record[1] == 2)
}

/// 2: a kind, a sort or a field that isn't listed.
fn apply_2(random: &mut Random, records: &mut Records) {
    let Some(place) = any(random, records, |_| true) else { return records.push([0; 8]) };
    let record = &mut records[place];
    let bit = 1 << random.below(16);
    match random.below(4) {
        0 => record[0] = [0, 4, 255][random.below(3)],
        1 if record[0] != FUNCTION => set_field(record, 6, bit),
        2 if record[0] == NODE && !calls(record) => set_field(record, 4, bit),
        _ => record[1] = [2, 4, 1][(record[0] as usize + 2) % 3],
    }
}

/// 3: two records of different kinds change places.
fn apply_3(random: &mut Random, records: &mut Records) {
    let Some(x) = any(random, records, |_| true) else { return };
    let kind = records[x][0];
    if let Some(y) = any(random, records, |r| r[0] != kind) {
        records.swap(x, y);
    }
}

/// 4: one or some more of a kind than allowed.
fn apply_4(random: &mut Random, records: &mut Records) {
    let kind = 1 + random.below(3);
    let place = end(records, kind as u8);
    let mut copy = record(kind as u8, 0, 0, 0, 0);
    if let Some(i) = any(random, records, |r| r[0] == kind as u8) {
        copy = records[i];
    }
    let more = (FULL[kind - 1] + 1 + random.below(2)).saturating_sub(count(records, kind as u8));
    records.splice(place..place, vec![copy; more]);
}

/// 5: no entry, or no function.
fn apply_5(random: &mut Random, records: &mut Records) {
    if random.once_in(4) {
        records.retain(|r| r[0] != FUNCTION);
    }
    for record in records.iter_mut().filter(|r| r[0] == FUNCTION) {
        record[1] = 0;
    }
}

/// 6: a number just past the last one, or far from it.
fn apply_6(random: &mut Random, records: &mut Records) {
    let (functions, nodes) = (count(records, FUNCTION), count(records, NODE));
    let Some(place) = any(random, records, |_| true) else { return };
    let record = &mut records[place];
    let most = if record[0] == NODE { functions } else { nodes };
    let wrong = match random.below(4) {
        0 => 65_535,
        1 => most + (1 << random.below(15)),
        _ => most,
    };
    let both = record[0] != NODE || calls(record);
    set_field(record, if both && random.once_in(2) { 4 } else { 2 }, wrong);
}

/// 7: a first or exit node of another function, or an edge to another one.
fn apply_7(random: &mut Random, records: &mut Records) {
    let functions = count(records, FUNCTION);
    let Some(place) = any(random, records, |r| r[0] != NODE) else { return };
    let Some(node) = any(random, records, |r| r[0] == NODE) else { return };
    let at = 2 + 2 * random.below(2);
    set_field(&mut records[place], at, node - functions);
}

/// 8: a first or exit node that isn't plain.
fn apply_8(random: &mut Random, records: &mut Records) {
    let functions = count(records, FUNCTION);
    let Some(place) = any(random, records, |r| r[0] == FUNCTION) else { return };
    let node = functions + field(&records[place], 2 + 2 * random.below(2));
    if let Some(record) = records.get_mut(node) {
        record[1] = 1 + random.below(3) as u8;
    }
}

type Apply = fn(&mut Random, &mut Records);

/// The checks but 1, by their numbers, in the order in which they win.
const APPLY: [(u32, Apply); 8] =
    [(2, apply_2), (3, apply_3), (4, apply_4), (5, apply_5), (6, apply_6), (7, apply_7), (8, apply_8), (15, apply_15)];

/// Mostly makes two neighbouring checks apply, else one or any two.
pub fn refused(random: &mut Random, table: &[u8]) -> Vec<u8> {
    // Check 1 is place 0 among them.
    let (any, low) = (random.below(APPLY.len() + 1), random.below(APPLY.len()));
    let pair = match random.below(6) {
        0 => [any, any],
        1 => [any, low],
        _ => [low, low + 1],
    };
    let mut records = records(table);
    // The higher ones first: they ask for a table in which numbers mean something.
    for (_, (_, apply)) in APPLY.iter().enumerate().rev().filter(|(i, _)| pair.contains(&(i + 1))) {
        apply(random, &mut records);
    }
    let mut table = records.concat();
    if pair.contains(&0) {
        table.extend(vec![random.below(4) as u8; 1 + random.below(7)]);
    }
    table
}

#[cfg(test)]
mod tests {
    use super::*;
    use second::random::{table, Shape};
    use second::table::check;

    /// Each check made to apply alone is mostly the one that the table is refused for.
    #[test]
    fn checks_apply() {
        let mut random = Random::new(5);
        let mut counts = [0; APPLY.len()];
        let mut refused_ones = 0;
        for _ in 0..700 {
            for ((number, apply), count) in APPLY.iter().zip(&mut counts) {
                let mut records = records(&table(&mut random, Shape::USUAL));
                apply(&mut random, &mut records);
                *count += matches!(check(&records.concat()), Err((found, _)) if found == *number) as u32;
            }
            let bytes = table(&mut random, Shape::USUAL);
            refused_ones += check(&refused(&mut random, &bytes)).is_err() as u32;
        }
        assert!(refused_ones > 600 && counts.iter().all(|&count| count > 300), "{refused_ones} {counts:?}");
    }
}
