//! The synchronising set against all sets of nodes, on small random tables.

use second::random::{self, Random, Shape};
use second::sync::synchronising;
use second::table::{check, Program, Sort};

/// The nodes, as bits, of all paths from one node to another that pass no node twice. Any other path between the two
/// holds all nodes of one of these.
fn paths(program: &Program, passed: u32, from: usize, to: usize) -> Vec<u32> {
    let passed = passed | 1 << from;
    let mut all = if from == to { vec![passed] } else { Vec::new() };
    for &(u, v) in &program.edges {
        if u == from && passed >> v & 1 == 0 {
            all.extend(paths(program, passed, v, to));
        }
    }
    all
}

/// The nodes that the two rules ask for, given the synchronising ones: "A sync is synchronising. A call is synchronising
/// if every path from its target's first node to the target's exit holds a synchronising node."
fn asked(program: &Program, across: &[Vec<u32>], set: u32) -> u32 {
    let mut asked = 0;
    for (n, node) in program.nodes.iter().enumerate() {
        let by_a_rule = match node.sort {
            Sort::Sync => true,
            Sort::Call => across[node.target].iter().all(|path| path & set != 0),
            _ => false,
        };
        asked |= (by_a_rule as u32) << n;
    }
    asked
}

/// "The set is the smallest with these two rules."
#[test]
fn the_smallest_set() {
    let mut random = Random::new(21);
    let (mut tables, mut calls, mut none, mut other_ones) = (0, 0, 0, 0);
    while tables < 4_000 {
        let shape = Shape { functions: 5, inner: 3, spawns: random.below(2), ..Shape::USUAL };
        let program = check(&random::table(&mut random, shape)).unwrap();
        if program.nodes.len() > 12 {
            continue;
        }
        let across: Vec<Vec<u32>> = program.functions.iter().map(|f| paths(&program, 0, f.first, f.exit)).collect();
        let all_sets = 0..1_u32 << program.nodes.len();
        let closed: Vec<u32> = all_sets.filter(|&set| asked(&program, &across, set) & !set == 0).collect();
        let smallest: Vec<u32> = closed.iter().copied().filter(|&x| closed.iter().all(|&y| x & !y == 0)).collect();
        let found = synchronising(&program);
        assert_eq!(smallest, [found[0] as u32]);
        assert_eq!(found[1..], [0; 7]);

        // How telling the tables are: synchronising calls, functions without a path, and sets that the rules ask for in
        // full but that aren't the smallest.
        tables += 1;
        let is_call = |n: usize| program.nodes[n].sort == Sort::Call;
        calls += (0..program.nodes.len()).any(|n| is_call(n) && smallest[0] >> n & 1 == 1) as u32;
        none += across.iter().any(|paths| paths.is_empty()) as u32;
        other_ones += closed.iter().any(|&set| set != smallest[0] && asked(&program, &across, set) == set) as u32;
    }
    println!("{tables} tables, {calls} with such calls, {none} with no path, {other_ones} with other sets");
    assert!(calls > 400 && none > 200 && other_ones > 100);
}
