//! "Safety", and the call that takes one choice.

use crate::sizes::{least, numbers_needed, Sums, Table, POST, UNBOUNDED};
use crate::sync::{synchronising, Set};
use crate::table::{check, Program, Refusal, Sort};

/// 1: "Post of the target of every spawn, merged or not, is 0".
pub fn first_condition(program: &Program, table: &Table) -> bool {
    for node in &program.nodes {
        if node.sort == Sort::Spawn && table.functions[node.target][POST] != 0 {
            return false;
        }
    }
    true
}

/// 2: "for every open path of two or more nodes and every place where it is cut into a front and a back, both
/// non-empty, not both of these are unbounded: Post(first of front) + Through of the rest of the front; and Through of
/// all of the back but its last + Pre(last of back)". A cut lies on an edge. Any front that ends where the edge starts
/// and any back that starts where it ends make up an open path together.
pub fn second_condition(program: &Program, set: &Set, table: &Table) -> bool {
    let mut sums = Sums::new(program);
    sums.raise_to(program, set, table);
    for &(u, v) in &program.edges {
        if sums.front[u] == UNBOUNDED && sums.back[v] == UNBOUNDED {
            return false;
        }
    }
    true
}

/// "A choice is safe if, on its sizes" both conditions hold.
pub fn safe(program: &Program, set: &Set, table: &Table) -> bool {
    first_condition(program, table) && second_condition(program, set, table)
}

/// Whether a choice is safe.
pub fn safe_choice(program: &Program, set: &Set, choice: &[u8]) -> bool {
    safe(program, set, &least(program, set, choice).table)
}

/// "A choice gives one byte for each node: 0 if it is no spawn; else 1 unmerged, 2 merged guarded, 3 merged unguarded."
pub fn listed(sort: Sort, byte: u8) -> bool {
    if sort == Sort::Spawn {
        return byte == 1 || byte == 2 || byte == 3;
    }
    byte == 0
}

/// 9: "choice not one byte per node, or a byte outside its list", place "node count, or the node".
fn refusal_9(program: &Program, choice: &[u8]) -> Option<usize> {
    // "in 9 a wrong length goes before a wrong byte"
    if choice.len() != program.nodes.len() {
        return Some(program.nodes.len());
    }
    for (n, node) in program.nodes.iter().enumerate() {
        if !listed(node.sort, choice[n]) {
            return Some(n);
        }
    }
    None
}

/// Whether a choice for a table is safe, and its sizes as they are written into a buffer of that many numbers.
pub fn one_choice(bytes: &[u8], choice: &[u8], buffer_len: usize) -> Result<(bool, Vec<u32>), Refusal> {
    let program = check(bytes)?;
    if let Some(place) = refusal_9(&program, choice) {
        return Err((9, place));
    }
    // 11: "sizes buffer too short", place "length needed".
    if buffer_len < numbers_needed(&program) {
        return Err((11, numbers_needed(&program)));
    }
    let set = synchronising(&program);
    let table = least(&program, &set, choice).table;
    Ok((safe(&program, &set, &table), table.written()))
}
