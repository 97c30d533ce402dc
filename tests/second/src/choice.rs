//! "Preference and the best choice".

use crate::safety::safe_choice;
use crate::sizes::{counted, least, numbers_needed};
use crate::sync::synchronising;
use crate::table::{check, Program, Refusal, Sort};
use std::cmp::Reverse;

/// "A function's depth is the fewest calls and spawns from an entry to it; entries have 0, and so has one that no entry
/// reaches."
pub fn depths(program: &Program) -> Vec<usize> {
    let mut fewest: Vec<Option<usize>> = Vec::new();
    for function in &program.functions {
        fewest.push(if function.entry { Some(0) } else { None });
    }
    let mut changed = true;
    while changed {
        changed = false;
        for node in &program.nodes {
            if node.sort != Sort::Call && node.sort != Sort::Spawn {
                continue;
            }
            if let Some(depth) = fewest[node.owner] {
                if fewest[node.target].map_or(true, |old| depth + 1 < old) {
                    fewest[node.target] = Some(depth + 1);
                    changed = true;
                }
            }
        }
    }
    fewest.iter().map(|depth| depth.unwrap_or(0)).collect()
}

/// "A spawn's depth is its owner's. Deeper spawns come first"; "Equal depth is now broken by the larger frame of the
/// spawned function, and then by the smaller node number"; frames are "rounded frames, and the order of Ask 2 compares
/// those too".
pub fn order(program: &Program) -> Vec<usize> {
    order_by(program, counted)
}

/// The same with frames that count as something else, so that tests see where it matters what they count as.
pub fn order_by(program: &Program, counted: impl Fn(u32) -> u32) -> Vec<usize> {
    let depths = depths(program);
    let mut spawns: Vec<usize> = (0..program.nodes.len()).filter(|&n| program.nodes[n].sort == Sort::Spawn).collect();
    spawns.sort_by_key(|&n| {
        let node = &program.nodes[n];
        (Reverse(depths[node.owner]), Reverse(counted(program.functions[node.target].frame)), n)
    });
    spawns
}

/// Demand 3: whether the choice x beats the choice y.
pub fn beats(order: &[usize], x: &[u8], y: &[u8]) -> bool {
    // "If some spawn is merged by just one of them, the one that merges the first such spawn beats the other."
    for &s in order {
        let (by_x, by_y) = (x[s] >= 2, y[s] >= 2);
        if by_x != by_y {
            return by_x;
        }
    }
    // "If both merge the same spawns, the one that leaves unguarded the first spawn where just one does so beats the
    // other."
    for &s in order {
        let (by_x, by_y) = (x[s] == 3, y[s] == 3);
        if by_x != by_y {
            return by_x;
        }
    }
    // "In no other case does one choice beat another."
    false
}

/// The choice that merges nothing.
pub fn unmerged(program: &Program) -> Vec<u8> {
    program.nodes.iter().map(|node| if node.sort == Sort::Spawn { 1 } else { 0 }).collect()
}

/// The best choice by a walk: in preference order merge each spawn guarded where the choice stays safe, then in the same
/// order unguard each merged one where it stays safe.
pub fn greedy(program: &Program) -> Vec<u8> {
    greedy_in(program, &order(program))
}

/// The same walk in any order.
pub fn greedy_in(program: &Program, order: &[usize]) -> Vec<u8> {
    let set = synchronising(program);
    let mut choice = unmerged(program);
    for &s in order {
        choice[s] = 2;
        if !safe_choice(program, &set, &choice) {
            choice[s] = 1;
        }
    }
    for &s in order {
        if choice[s] == 2 {
            choice[s] = 3;
            if !safe_choice(program, &set, &choice) {
                choice[s] = 2;
            }
        }
    }
    choice
}

/// All choices for a table, 3 for each spawn.
pub fn all_choices(program: &Program) -> Vec<Vec<u8>> {
    let mut all = vec![unmerged(program)];
    for (n, node) in program.nodes.iter().enumerate() {
        if node.sort != Sort::Spawn {
            continue;
        }
        let mut more = Vec::new();
        for choice in &all {
            for byte in 1..=3 {
                let mut other = choice.clone();
                other[n] = byte;
                more.push(other);
            }
        }
        all = more;
    }
    all
}

/// All safe choices that no safe choice beats, by comparing each safe choice with each. Demand 3 asks for exactly one.
pub fn unbeaten(program: &Program) -> Vec<Vec<u8>> {
    let set = synchronising(program);
    let order = order(program);
    let mut all = all_choices(program);
    all.retain(|choice| safe_choice(program, &set, choice));
    let mut found = Vec::new();
    for x in &all {
        if !all.iter().any(|y| beats(&order, y, x)) {
            found.push(x.clone());
        }
    }
    found
}

/// "The best-choice call writes the choice's bytes, one per node, into the verdict buffer, and its sizes into the sizes
/// buffer": what it writes into buffers of these lengths.
pub fn best(bytes: &[u8], verdict_len: usize, sizes_len: usize) -> Result<(Vec<u8>, Vec<u32>), Refusal> {
    let program = check(bytes)?;
    // 10: "verdict buffer shorter than the node count", place "length needed".
    if verdict_len < program.nodes.len() {
        return Err((10, program.nodes.len()));
    }
    // 11: "sizes buffer too short", place "length needed".
    if sizes_len < numbers_needed(&program) {
        return Err((11, numbers_needed(&program)));
    }
    let choice = greedy(&program);
    let table = least(&program, &synchronising(&program), &choice).table;
    Ok((choice, table.written()))
}
