//! "Synchronising nodes".

use crate::table::{Program, Sort};

/// "one bit for each node, in 64-bit words: node n is bit n mod 64, lowest first, of word n div 64".
pub type Set = [u64; 8];

pub fn holds(set: &Set, n: usize) -> bool {
    (set[n / 64] >> (n % 64)) & 1 == 1
}

/// Whether there is a path from one node to the other that holds no node of the set. A path's ends are nodes of it.
fn path_without(program: &Program, set: &Set, from: usize, to: usize) -> bool {
    let mut reached = vec![false; program.nodes.len()];
    // "a single node is a path"
    reached[from] = !holds(set, from);
    let mut changed = true;
    while changed {
        changed = false;
        for &(u, v) in &program.edges {
            if reached[u] && !reached[v] && !holds(set, v) {
                reached[v] = true;
                changed = true;
            }
        }
    }
    reached[to]
}

/// "The set is the smallest with these two rules": begin with the syncs and add what the second rule forces, until
/// nothing changes.
pub fn synchronising(program: &Program) -> Set {
    let mut set = [0; 8];
    // "A sync is synchronising."
    for (n, node) in program.nodes.iter().enumerate() {
        if node.sort == Sort::Sync {
            set[n / 64] |= 1 << (n % 64);
        }
    }
    let mut changed = true;
    while changed {
        changed = false;
        for (n, node) in program.nodes.iter().enumerate() {
            if node.sort != Sort::Call || holds(&set, n) {
                continue;
            }
            // "A call is synchronising if every path from its target's first node to the target's exit holds a
            // synchronising node." "With no such path at all, the call is synchronising."
            let target = &program.functions[node.target];
            if !path_without(program, &set, target.first, target.exit) {
                set[n / 64] |= 1 << (n % 64);
                changed = true;
            }
        }
    }
    set
}
