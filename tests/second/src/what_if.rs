//! Document 02, "What-if lists": the call that takes a number of choices.

use crate::safety::{listed, safe};
use crate::sizes::{least, numbers_needed};
use crate::sync::synchronising;
use crate::table::{check, Program, Refusal};

/// "up to 16 choices for one table"
const MOST: usize = 16;

/// 12: "no choice or more than 16", place "the number handed in".
fn refusal_12(number: usize) -> Option<usize> {
    if number == 0 || number > MOST {
        return Some(number);
    }
    None
}

/// 9: "in 9 the place is the position in the whole list, or for a wrong length the length wanted".
fn refusal_9(program: &Program, number: usize, choices: &[u8]) -> Option<usize> {
    let wanted = number * program.nodes.len();
    if choices.len() != wanted {
        return Some(wanted);
    }
    // "the choices, one after another", each with "one byte for each node"
    let mut place = 0;
    for _ in 0..number {
        for node in &program.nodes {
            if !listed(node.sort, choices[place]) {
                return Some(place);
            }
            place += 1;
        }
    }
    None
}

/// "the safety and the sizes of each": safety is "a 16-bit number, bit 0 for the first choice, 1 for safe, unused bits
/// 0", and the sizes are "one set after another", as they are written into a buffer of that many numbers.
pub fn what_if(bytes: &[u8], number: usize, choices: &[u8], buffer_len: usize) -> Result<(u16, Vec<u32>), Refusal> {
    let program = check(bytes)?;
    // "12 [..] comes before 9", and from here on the number is small.
    if let Some(place) = refusal_12(number) {
        return Err((12, place));
    }
    if let Some(place) = refusal_9(&program, number, choices) {
        return Err((9, place));
    }
    // 11: "sizes buffer too short", place "length needed".
    let needed = number * numbers_needed(&program);
    if buffer_len < needed {
        return Err((11, needed));
    }
    let set = synchronising(&program);
    let (mut bits, mut sizes) = (0, Vec::new());
    for (i, choice) in choices.chunks(program.nodes.len()).enumerate() {
        let table = least(&program, &set, choice).table;
        if safe(&program, &set, &table) {
            bits |= 1 << i;
        }
        sizes.extend(table.written());
    }
    Ok((bits, sizes))
}
