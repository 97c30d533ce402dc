//! "Sizes and their rules".

use crate::sync::{holds, Set};
use crate::table::{Program, Sort};

/// "A size is either a number of bytes up to 65,535 or unbounded", which is written as 65,536.
pub const UNBOUNDED: u32 = 65_536;

/// "A sum above 65,535, or with an unbounded part, is unbounded."
pub fn add(x: u32, y: u32) -> u32 {
    if x + y > 65_535 {
        return UNBOUNDED;
    }
    x + y
}

/// Document 02: "A frame counts as its bytes rounded up to a multiple of 16, in every rule where a frame stands. Frames of
/// 65,521 and more are unbounded by that."
pub fn counted(frame: u32) -> u32 {
    let rounded = frame.next_multiple_of(16);
    if rounded > 65_535 {
        return UNBOUNDED;
    }
    rounded
}

pub const TOTAL: usize = 0;
pub const POST: usize = 1;
pub const PRE: usize = 2;
pub const THROUGH: usize = 3;

/// "Each function and node has four sizes: Total, Post, Pre, Through."
#[derive(Clone, PartialEq, Eq, Debug)]
pub struct Table {
    pub functions: Vec<[u32; 4]>,
    pub nodes: Vec<[u32; 4]>,
}

impl Table {
    pub fn zero(program: &Program) -> Table {
        Table { functions: vec![[0; 4]; program.functions.len()], nodes: vec![[0; 4]; program.nodes.len()] }
    }

    /// "Sizes are written as 32-bit numbers [..]: for each function and then each node Total, Post, Pre, Through."
    pub fn written(&self) -> Vec<u32> {
        let mut numbers = Vec::new();
        for sizes in self.functions.iter().chain(&self.nodes) {
            numbers.extend_from_slice(sizes);
        }
        numbers
    }
}

/// How many numbers `written` gives.
pub fn numbers_needed(program: &Program) -> usize {
    4 * (program.functions.len() + program.nodes.len())
}

fn raise(entry: &mut u32, at_least: u32) -> bool {
    if at_least > *entry {
        *entry = at_least;
        return true;
    }
    false
}

/// The largest sums along paths, for each node. A path is open if no node strictly between its two ends is
/// synchronising, so it may be made longer at an end that isn't synchronising only.
pub struct Sums {
    /// Post(first) + Through of all others, over paths that end here, none of the others synchronising.
    pub front: Vec<u32>,
    /// Through of all but the last + Pre(last), over paths that start here, none but the last synchronising.
    pub back: Vec<u32>,
    /// Through of all nodes, over paths from the function's first node to here, none synchronising; none if there is no
    /// such path.
    pub across: Vec<Option<u32>>,
}

impl Sums {
    pub fn new(program: &Program) -> Sums {
        let nodes = program.nodes.len();
        Sums { front: vec![0; nodes], back: vec![0; nodes], across: vec![None; nodes] }
    }

    /// Raises the sums to those of a table, step by step until nothing changes. The sums of a lower table may be there
    /// already: entries only rise, and the sums with them.
    pub fn raise_to(&mut self, program: &Program, set: &Set, table: &Table) {
        // "a single node is a path"
        for (n, sizes) in table.nodes.iter().enumerate() {
            raise(&mut self.front[n], sizes[POST]);
            raise(&mut self.back[n], sizes[PRE]);
        }
        for function in &program.functions {
            let n = function.first;
            let alone = table.nodes[n][THROUGH];
            self.across[n] = Some(self.across[n].map_or(alone, |sum| sum.max(alone)));
        }
        let mut changed = true;
        while changed {
            changed = false;
            for &(u, v) in &program.edges {
                if !holds(set, v) {
                    let through = table.nodes[v][THROUGH];
                    let longer = add(self.front[u], through);
                    changed |= raise(&mut self.front[v], longer);
                    if let Some(sum) = self.across[u] {
                        let longer = add(sum, through);
                        if self.across[v].map_or(true, |old| longer > old) {
                            self.across[v] = Some(longer);
                            changed = true;
                        }
                    }
                }
                if !holds(set, u) {
                    let longer = add(table.nodes[u][THROUGH], self.back[v]);
                    changed |= raise(&mut self.back[u], longer);
                }
            }
        }
    }
}

/// What the rules of functions ask for, each "for function f, with frame that of f".
fn raise_functions(program: &Program, table: &Table, sums: &Sums, next: &mut Table) {
    // "Total(f): frame + Total(n) for each node n of f."
    for (n, node) in program.nodes.iter().enumerate() {
        let frame = counted(program.functions[node.owner].frame);
        raise(&mut next.functions[node.owner][TOTAL], add(frame, table.nodes[n][TOTAL]));
    }
    // "Total(f): frame + Post(first) + Through of those between + Pre(last), for each open path of two or more nodes."
    // The last step of such a path is the edge from u to v.
    for &(u, v) in &program.edges {
        let f = program.nodes[u].owner;
        let path = add(sums.front[u], table.nodes[v][PRE]);
        raise(&mut next.functions[f][TOTAL], add(counted(program.functions[f].frame), path));
    }
    for (f, function) in program.functions.iter().enumerate() {
        let sizes = &mut next.functions[f];
        // "Post(f): Post(first) + Through of all others, for each open path ending at the exit."
        raise(&mut sizes[POST], sums.front[function.exit]);
        // "Pre(f): frame + Through of all but the last + Pre(last), for each open path from the first node."
        raise(&mut sizes[PRE], add(counted(function.frame), sums.back[function.first]));
        // "Through(f): the Through of all nodes, for each open path from first node to exit."
        if let Some(sum) = sums.across[function.exit] {
            raise(&mut sizes[THROUGH], sum);
        }
    }
}

/// What the rules of nodes ask for.
fn raise_nodes(program: &Program, choice: &[u8], table: &Table, next: &mut Table) {
    for (n, node) in program.nodes.iter().enumerate() {
        let sizes = &mut next.nodes[n];
        let target = table.functions[node.target];
        // "A call: each size at least its target's."
        if node.sort == Sort::Call {
            for size in [TOTAL, POST, PRE, THROUGH] {
                raise(&mut sizes[size], target[size]);
            }
        }
        // "A merged spawn: Total and Post at least Total of its target; if unguarded, Pre and Through too."
        if node.sort == Sort::Spawn && choice[n] >= 2 {
            raise(&mut sizes[TOTAL], target[TOTAL]);
            raise(&mut sizes[POST], target[TOTAL]);
            if choice[n] == 3 {
                raise(&mut sizes[PRE], target[TOTAL]);
                raise(&mut sizes[THROUGH], target[TOTAL]);
            }
        }
    }
}

/// One round: what all rules ask for, read off the present table and its sums.
fn round(program: &Program, choice: &[u8], table: &Table, sums: &Sums) -> Table {
    let mut next = table.clone();
    raise_functions(program, table, sums, &mut next);
    raise_nodes(program, choice, table, &mut next);
    next
}

/// The least table and the number of rounds, the last of which raises nothing.
pub struct Least {
    pub table: Table,
    pub rounds: u64,
}

/// "the least table that meets all of these, the one where every entry starts from zero and rises only as far as the
/// rules force it".
pub fn least(program: &Program, set: &Set, choice: &[u8]) -> Least {
    let mut table = Table::zero(program);
    let mut sums = Sums::new(program);
    let mut rounds = 0;
    loop {
        sums.raise_to(program, set, &table);
        let next = round(program, choice, &table, &sums);
        rounds += 1;
        if next == table {
            return Least { table, rounds };
        }
        table = next;
    }
}
