//! Sizes and safety against the rules with every path written out, on small random tables.

use second::choice::unmerged;
use second::random::{self, Random, Shape};
use second::safety::safe;
use second::sizes::{add, least, Table, POST, PRE, THROUGH, TOTAL, UNBOUNDED};
use second::sync::{holds, synchronising, Set};
use second::table::{check, Program, Sort};

/// All paths of up to so many nodes.
fn paths(program: &Program, longest: usize) -> Vec<Vec<usize>> {
    let mut edges = program.edges.clone();
    edges.sort();
    edges.dedup();
    let mut all: Vec<Vec<usize>> = (0..program.nodes.len()).map(|n| vec![n]).collect();
    let mut last = all.clone();
    for _ in 1..longest {
        let mut longer = Vec::new();
        for path in &last {
            for &(u, v) in &edges {
                if u == path[path.len() - 1] {
                    let mut more = path.clone();
                    more.push(v);
                    longer.push(more);
                }
            }
        }
        all.extend(longer.clone());
        last = longer;
    }
    all
}

/// "A path is *open* if no node strictly between its two ends is synchronising."
fn open(set: &Set, path: &[usize]) -> bool {
    path.len() < 3 || path[1..path.len() - 1].iter().all(|&n| !holds(set, n))
}

/// An open path. A turn is a part of it that comes back to where it began, from just behind the one place to the other,
/// and that may be passed again: the path stays open then. With that any number of times, it stands for all those paths.
struct Path {
    nodes: Vec<usize>,
    turns: Vec<(usize, usize)>,
}

fn with_turns(set: &Set, nodes: Vec<usize>) -> Path {
    let mut turns = Vec::new();
    for j in 1..nodes.len() {
        // The last place before: what lies between two others is made of such parts.
        let Some(i) = (0..j).rev().find(|&i| nodes[i] == nodes[j]) else { continue };
        if open(set, &[&nodes[..=j], &nodes[i + 1..]].concat()) {
            turns.push((i, j));
        }
    }
    Path { nodes, turns }
}

impl Path {
    /// Whether a turn from one place to another adds to the Through of a path.
    fn grows(&self, table: &Table, from: usize, to: usize) -> bool {
        self.turns.iter().any(|&(i, j)| from <= i && j <= to && through(table, &self.nodes[i + 1..=j]) > 0)
    }
}

fn through(table: &Table, nodes: &[usize]) -> u32 {
    nodes.iter().fold(0, |sum, &n| add(sum, table.nodes[n][THROUGH]))
}

/// "A frame counts as its bytes rounded up to a multiple of 16 [..] Frames of 65,521 and more are unbounded by that."
fn counted(frame: u32) -> u32 {
    let is_between = frame % 16 > 0;
    add(16 * (frame / 16 + is_between as u32), 0)
}

/// What the rules ask for on a table, one path at a time.
fn asked(program: &Program, choice: &[u8], open_paths: &[Path], table: &Table) -> Table {
    let mut next = Table::zero(program);
    for path in open_paths {
        asked_on(program, path, table, &mut next);
    }
    for (n, node) in program.nodes.iter().enumerate() {
        let target = table.functions[node.target];
        if node.sort == Sort::Call {
            next.nodes[n] = target;
        }
        if node.sort == Sort::Spawn {
            let total = target[TOTAL];
            next.nodes[n] = match choice[n] {
                1 => [0, 0, 0, 0],
                2 => [total, total, 0, 0],
                _ => [total, total, total, total],
            };
        }
    }
    next
}

/// What the rules of functions ask for on a path, and on those with more of its turns.
fn asked_on(program: &Program, path: &Path, table: &Table, next: &mut Table) {
    let nodes = &path.nodes;
    let last = nodes.len() - 1;
    let f = program.nodes[nodes[0]].owner;
    let function = &program.functions[f];
    let frame = counted(function.frame);
    let more = if path.grows(table, 0, last) { UNBOUNDED } else { 0 };
    let mut raise = |size: usize, x: u32| next.functions[f][size] = add(x, more).max(next.functions[f][size]);
    let (head, tail) = (table.nodes[nodes[0]], table.nodes[nodes[last]]);
    if last == 0 {
        raise(TOTAL, add(frame, head[TOTAL]));
    } else {
        let sum = add(add(head[POST], through(table, &nodes[1..last])), tail[PRE]);
        raise(TOTAL, add(frame, sum));
    }
    if nodes[last] == function.exit {
        raise(POST, add(head[POST], through(table, &nodes[1..])));
    }
    if nodes[0] == function.first {
        let sum = add(through(table, &nodes[..last]), tail[PRE]);
        raise(PRE, add(frame, sum));
    }
    if nodes[0] == function.first && nodes[last] == function.exit {
        raise(THROUGH, through(table, nodes));
    }
}

/// Both conditions with every path and every cut written out.
fn safe_on(program: &Program, open_paths: &[Path], table: &Table) -> bool {
    let first = program.nodes.iter().all(|node| node.sort != Sort::Spawn || table.functions[node.target][POST] == 0);
    let second = open_paths.iter().all(|path| {
        let last = path.nodes.len() - 1;
        (1..=last).all(|cut| {
            let (front, back) = path.nodes.split_at(cut);
            let x = add(table.nodes[front[0]][POST], through(table, &front[1..]));
            let y = add(through(table, &back[..back.len() - 1]), table.nodes[path.nodes[last]][PRE]);
            let front_unbounded = x == UNBOUNDED || path.grows(table, 0, cut - 1);
            let back_unbounded = y == UNBOUNDED || path.grows(table, cut, last);
            !(front_unbounded && back_unbounded)
        })
    });
    first && second
}

/// With at most so many inner nodes in a function, paths of up to so many nodes, and those with more of their turns, ask
/// for all that all paths ask for.
fn compare(seed: u64, tables: usize, loops: bool, inner: usize, longest: usize) {
    let mut random = Random::new(seed);
    let (mut unsafe_ones, mut turning) = (0, 0);
    for _ in 0..tables {
        let shape = Shape { functions: 4, inner, spawns: 5, loops, ..Shape::USUAL };
        let bytes = random::table(&mut random, shape);
        let program = check(&bytes).unwrap();
        let set = synchronising(&program);
        let mut choice = unmerged(&program);
        for byte in choice.iter_mut().filter(|byte| **byte == 1) {
            *byte = 1 + random.below(3) as u8;
        }
        let mut open_paths = paths(&program, longest);
        open_paths.retain(|path| open(&set, path));
        let open_paths: Vec<Path> = open_paths.into_iter().map(|path| with_turns(&set, path)).collect();
        let table = least(&program, &set, &choice).table;
        let mut forced = Table::zero(&program);
        loop {
            let next = asked(&program, &choice, &open_paths, &forced);
            if next == forced {
                break;
            }
            forced = next;
        }
        assert_eq!(forced, table);
        let said = safe(&program, &set, &table);
        assert_eq!(said, safe_on(&program, &open_paths, &table));
        unsafe_ones += !said as usize;
        turning += open_paths.iter().any(|path| path.grows(&table, 0, path.nodes.len())) as usize;
    }
    println!("{tables} tables, {unsafe_ones} unsafe, {turning} with turns that make sizes unbounded");
    assert!(unsafe_ones > tables / 20 && unsafe_ones < tables - tables / 20);
    assert_eq!(turning > tables / 20, loops);
}

#[test]
fn without_loops() {
    compare(11, 20_000, false, 3, 6);
}

/// To a turn, along it, and on; before the cut and behind it.
#[test]
fn with_loops() {
    compare(12, 4_000, true, 2, 14);
}
