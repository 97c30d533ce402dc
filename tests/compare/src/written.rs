//! The table that the writer writes: by the proved library and by the second implementation, and what is to be seen of it
//! without the second one.

use crate::answers::{alone, told, written};
use crate::input::{Input, BEHIND};
use crate::refused::{records, Records};
use nagbiro::{nagbiro_best_choice, nagbiro_check, nagbiro_ordered};
use second::choice::greedy;
use second::ordered::ordered;
use second::random::Random;
use second::safety::{listed, safe};
use second::sizes::least;
use second::sync::synchronising;
use second::table::check_free;

/// What the call returns and leaves: the number, the place, the length, and the buffer.
#[derive(PartialEq, Eq, Clone, Debug)]
pub struct Written {
    pub number: u32,
    pub place: usize,
    pub length: usize,
    pub out: Vec<u8>,
}

impl Written {
    /// The table that was written, if one was.
    pub fn table(&self) -> Option<&[u8]> {
        if self.number != 0 {
            return None;
        }
        self.out[..told(&self.out)].get(..self.length)
    }
}

/// A buffer as `Input` has it, mostly about as long as is needed. For a table that is refused it is any one.
pub fn buffer(random: &mut Random, table: &[u8]) -> Vec<u8> {
    let needed = ordered(table, usize::MAX).map_or(random.below(200), |new| new.len());
    let room = match random.below(16) {
        0 => 0,
        1 => random.below(needed + 1),
        2 => needed.saturating_sub(1),
        3 => needed.saturating_sub(8),
        4..=8 => needed,
        9 => table.len(),
        _ => needed + random.below(40),
    };
    (0..room + BEHIND).map(|_| random.next() as u8).collect()
}

/// The library's. Before the call, what stands in the length and the place are two of these numbers.
pub fn first_ordered(table: &[u8], buffer: &[u8], numbers: [usize; 4]) -> Written {
    let (mut out, [mut length, _, _, mut place]) = (buffer.to_vec(), numbers);
    let (to, room) = (out.as_mut_ptr(), told(&out));
    // Each pointer comes from a reference or a vector and goes with a length that the vector has; none overlap.
    let number = unsafe { nagbiro_ordered(table.as_ptr(), table.len(), to, room, &mut length, &mut place) };
    Written { number, place, length, out }
}

/// The second implementation's. A refusal writes nothing but the place.
pub fn second_ordered(table: &[u8], buffer: &[u8], numbers: [usize; 4]) -> Written {
    match ordered(table, told(buffer)) {
        Ok(new) => Written { number: 0, place: numbers[3], length: new.len(), out: written(buffer, &new) },
        Err((number, place)) => Written { number, place, length: numbers[0], out: buffer.to_vec() },
    }
}

/// Whether a choice is safe and its sizes, for the choice of an input, where it is one for the table; and the best choice
/// and its sizes.
#[derive(PartialEq, Eq, Clone, Debug)]
pub struct Sizes {
    one: Option<(bool, Vec<u32>)>,
    best: (Vec<u8>, Vec<u32>),
}

/// The library's, of the table that was written.
pub fn first_sizes(input: &Input, table: &[u8]) -> Sizes {
    let records = records(table);
    let of_kind = |kind: u8| records.iter().filter(|r| r[0] == kind).count();
    let (nodes, needed) = (of_kind(2), 4 * (of_kind(1) + of_kind(2)));
    let (mut verdicts, mut sizes, mut place) = (vec![0; nodes], vec![0; needed], 0);
    let (v, s) = (verdicts.as_mut_ptr(), sizes.as_mut_ptr());
    // As above.
    let number = unsafe { nagbiro_best_choice(table.as_ptr(), table.len(), v, nodes, s, needed, &mut place) };
    if number != 0 {
        verdicts.clear();
    }
    Sizes { one: alone(table, &input.choice, needed).ok(), best: (verdicts, sizes) }
}

/// The second implementation's, of the table as the writer was handed it: "the same sizes for every choice".
pub fn second_sizes(input: &Input) -> Sizes {
    let program = check_free(&input.table).expect("a table that is written");
    let set = synchronising(&program);
    let sizes = |choice: &[u8]| {
        let table = least(&program, &set, choice).table;
        (safe(&program, &set, &table), table.written())
    };
    let is_listed = program.nodes.iter().zip(&input.choice).all(|(node, &byte)| listed(node.sort, byte));
    let is_choice = input.choice.len() == program.nodes.len() && is_listed;
    let best = greedy(&program);
    let best_sizes = sizes(&best).1;
    Sizes { one: is_choice.then(|| sizes(&input.choice)), best: (best, best_sizes) }
}

/// The functions and nodes of a table, and its edges.
fn parts(table: &[u8]) -> (Records, Records) {
    records(table).into_iter().partition(|record| record[0] != 3)
}

fn nodes(edge: &[u8; 8]) -> [u16; 2] {
    [[edge[2], edge[3]], [edge[4], edge[5]]].map(u16::from_le_bytes)
}

/// The table with its edges the other way round.
fn turned(table: &[u8]) -> Vec<u8> {
    let (front, mut edges) = parts(table);
    edges.reverse();
    [front, edges].concat().concat()
}

fn is_accepted(table: &[u8]) -> bool {
    let (mut a, mut b, mut c) = (0, 0, 0);
    // As above.
    unsafe { nagbiro_check(table.as_ptr(), table.len(), &mut a, &mut b, &mut c) == 0 }
}

/// An error with what is wrong with the table that was written, told by this table and the one that it was made of.
pub fn holds(input: &Input, ordered: &Written) -> Result<(), &'static str> {
    if ordered.number != 0 {
        return Ok(());
    }
    let new = ordered.table().ok_or("it is longer than its buffer")?;
    let ((old_front, old_edges), (front, edges)) = (parts(&input.table), parts(new));
    let again = |table: &[u8]| first_ordered(table, &input.out, input.numbers);
    let holds = [
        (front == old_front && new.starts_with(&front.concat()), "it has other functions and nodes"),
        (edges.windows(2).all(|pair| nodes(&pair[0]) < nodes(&pair[1])), "its edges do not ascend"),
        (edges.iter().all(|edge| old_edges.contains(edge)), "it has an edge too many"),
        (old_edges.iter().all(|edge| edges.contains(edge)), "it has an edge too few"),
        (ordered.out[new.len()..] == input.out[new.len()..], "the rest of the buffer is not kept"),
        (is_accepted(new), "it is refused"),
        (again(new) == *ordered, "written again, it is another one"),
        (!is_accepted(&input.table) || new == input.table, "it was in order, and is another one"),
        (again(&turned(&input.table)) == *ordered, "of the same edges the other way round it is another one"),
    ];
    holds.iter().find(|(holds, _)| !holds).map_or(Ok(()), |(_, wrong)| Err(*wrong))
}

#[cfg(test)]
mod tests {
    use super::*;
    use crate::input::input;

    /// Whatever is changed in what was written is seen without the second implementation.
    #[test]
    fn a_wrong_table_is_seen() {
        let mut seen = 0;
        for number in 0..300 {
            let input = input(2, number);
            let right = second_ordered(&input.table, &input.out, input.numbers);
            if right.number != 0 {
                continue;
            }
            for at in (0..right.out.len()).step_by(1 + right.out.len() / 40) {
                let mut wrong = right.clone();
                wrong.out[at] ^= 1;
                assert!(holds(&input, &wrong).is_err());
            }
            let shorter = Written { length: right.length - 8, ..right.clone() };
            let longer = Written { length: right.length + 8, ..right };
            assert!(holds(&input, &shorter).is_err() && holds(&input, &longer).is_err());
            seen += 1;
        }
        assert!(seen > 100);
    }
}
