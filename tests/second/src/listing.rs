//! "The listing program".

use crate::choice::best;
use crate::sizes::UNBOUNDED;
use crate::table::{check, Refusal, Sort};

/// "Unbounded prints as `unbounded`."
pub fn size(number: u32) -> String {
    if number == UNBOUNDED {
        return "unbounded".to_string();
    }
    number.to_string()
}

/// "Total, Post, Pre, Through. One space stands between fields."
pub fn four(numbers: &[u32]) -> String {
    format!("{} {} {} {}", size(numbers[0]), size(numbers[1]), size(numbers[2]), size(numbers[3]))
}

/// What the program prints for an input.
pub fn listing(bytes: &[u8]) -> String {
    // "It reads a table (at most 12,800 bytes; for a longer input it prints only `too long`)"
    if bytes.len() > 12_800 {
        return "too long\n".to_string();
    }
    match rows(bytes) {
        Ok(text) => text,
        // "A refusal prints `refused N at P`."
        Err((number, place)) => format!("refused {number} at {place}\n"),
    }
}

fn rows(bytes: &[u8]) -> Result<String, Refusal> {
    let program = check(bytes)?;
    let (choice, numbers) = best(bytes, 512, 2304)?;
    let functions = program.functions.len();
    let mut text = String::new();
    // "for each function F, its number, Total, Post, Pre, Through"
    for f in 0..functions {
        text += &format!("F {} {}\n", f, four(&numbers[4 * f..]));
    }
    // "then for each spawn, by node, S, number, verdict word (`unmerged`, `guarded` or `unguarded`), the four sizes"
    for (n, node) in program.nodes.iter().enumerate() {
        if node.sort == Sort::Spawn {
            let word = ["unmerged", "guarded", "unguarded"][choice[n] as usize - 1];
            text += &format!("S {} {} {}\n", n, word, four(&numbers[4 * (functions + n)..]));
        }
    }
    Ok(text)
}
