//! A list of choices for a table, and the number that a call is told of them.

use crate::input::{choice_of, length, BEHIND};
use second::random::Random;
use second::sizes::numbers_needed;
use second::table::{Program, Sort};

/// The most choices that a call takes.
pub const MOST: usize = 16;

pub struct List {
    /// The number that the call is told.
    pub number: usize,
    pub choices: Vec<u8>,
    /// The buffer for the sizes, as `Input` has the others, and what stands in the bits before the call.
    pub sizes: Vec<u32>,
    pub bits: u16,
}

/// How many choices are made: mostly a few, and of large tables, which take their time, mostly fewer.
fn count(random: &mut Random, nodes: usize) -> usize {
    if nodes > 60 && random.below(4) > 0 {
        return 1 + random.below(2);
    }
    match random.below(24) {
        0 => 0,
        1 => MOST + 1,
        2 => MOST - random.once_in(4) as usize,
        3..=8 => 1,
        9..=16 => 2,
        _ => 3 + random.below(3),
    }
}

/// The number that is told: mostly that of the choices, sometimes another, or one so far off that the same is left of
/// it in fewer bits, or of its product with a length in 64.
fn told(random: &mut Random, count: usize) -> usize {
    match random.below(32) {
        0 => [0, MOST + 1][random.below(2)],
        1 => 1 + random.below(MOST),
        2 => [1 << 40, usize::MAX - 1, usize::MAX][random.below(3)],
        3 => count + (1 << [4, 5, 8, 16, 32, 40, 61, 62, 63][random.below(9)]),
        _ => count,
    }
}

/// A byte that a node may not have.
fn wrong_byte(random: &mut Random, is_spawn: bool) -> u8 {
    match random.below(6) {
        0 => 255,
        1 => 4 + random.below(252) as u8,
        2 => 4,
        _ if is_spawn => 0,
        _ => 1 + random.below(3) as u8,
    }
}

/// Mostly leaves the list alone: else a byte is missing or one too many, or bytes are wrong, mostly one.
fn spoil(random: &mut Random, program: &Program, choices: &mut Vec<u8>) {
    match random.below(24) {
        0 => choices.push([0, 1][random.below(2)]),
        1 => drop(choices.pop()),
        2 => choices.truncate(random.below(choices.len() + 1)),
        3..=5 if !choices.is_empty() => {
            let wrong = if random.once_in(3) { 2 + random.below(3) } else { 1 };
            for _ in 0..wrong {
                let place = random.below(choices.len());
                let node = &program.nodes[place % program.nodes.len()];
                choices[place] = wrong_byte(random, node.sort == Sort::Spawn);
            }
        }
        _ => {}
    }
}

/// A list for the table. For a table that is refused it is any list.
pub fn list(random: &mut Random, program: Option<&Program>) -> List {
    let (mut number, mut choices, mut needed) = (random.below(20), vec![1; random.below(40)], random.below(80));
    if let Some(program) = program {
        let count = count(random, program.nodes.len());
        choices = (0..count).flat_map(|_| choice_of(random, &program.nodes)).collect();
        spoil(random, program, &mut choices);
        number = told(random, count);
        needed = count * numbers_needed(program);
    }
    let sizes = length(random, needed) + BEHIND;
    List { number, choices, sizes: (0..sizes).map(|_| random.next() as u32).collect(), bits: random.next() as u16 }
}

#[cfg(test)]
mod tests {
    use super::*;
    use second::safety::listed;

    #[test]
    fn wrong_bytes_are_wrong() {
        let mut random = Random::new(11);
        for _ in 0..1_000 {
            assert!(!listed(Sort::Spawn, wrong_byte(&mut random, true)));
            assert!(!listed(Sort::Plain, wrong_byte(&mut random, false)));
        }
    }
}
