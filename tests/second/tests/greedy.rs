//! The walk against all choices, on small random tables.

use second::choice::{depths, greedy, greedy_in, order, order_by, unbeaten};
use second::random::{self, Frames, Random, Shape};
use second::table::{check, Sort};

/// Returns in how many of the tables it matters that frames are compared, and in how many that they are rounded.
fn compare(seed: u64, tables: usize, table: impl Fn(&mut Random) -> Vec<u8>) -> (usize, usize) {
    let mut random = Random::new(seed);
    let (mut mixed, mut ordered, mut framed, mut rounded) = (0, 0, 0, 0);
    for _ in 0..tables {
        let program = check(&table(&mut random)).unwrap();
        let found = greedy(&program);
        assert_eq!(unbeaten(&program), [found.clone()]);

        // How telling the tables are: those where not all spawns get the same byte, and those where the order matters.
        let spawns = order(&program);
        mixed += spawns.iter().any(|&s| found[s] != found[spawns[0]]) as usize;
        let backward: Vec<usize> = spawns.iter().rev().copied().collect();
        ordered += (greedy_in(&program, &backward) != found) as usize;
        framed += (greedy_in(&program, &order_by(&program, |_| 0)) != found) as usize;
        rounded += (greedy_in(&program, &order_by(&program, |bytes| bytes)) != found) as usize;
    }
    println!("{tables} tables, {mixed} with different bytes, {ordered} where the order matters");
    println!("{framed} by frames, {rounded} by their rounding");
    assert!(mixed > tables / 20 && ordered > tables / 100);
    (framed, rounded)
}

#[test]
fn large_frames() {
    let shape = Shape { functions: 5, inner: 5, spawns: 5, frames: Frames::Usual, ..Shape::USUAL };
    assert!(compare(1, 6_000, |random| random::table(random, shape)).0 > 20);
}

/// Frames of 0, and of others that count the same.
#[test]
fn equal_frames() {
    let shape = Shape { functions: 5, inner: 5, spawns: 5, frames: Frames::Usual, ..Shape::USUAL };
    let table = |random: &mut Random| {
        let mut bytes = random::table(random, shape);
        let line = 4_000 + 16 * random.below(3_000);
        for record in bytes.chunks_mut(8).filter(|record| record[0] == 1 && record[6..] != [0, 0]) {
            record[6..].copy_from_slice(&((line - random.below(16)) as u16).to_le_bytes());
        }
        bytes
    };
    assert!(compare(5, 6_000, table).1 > 10);
}

#[test]
fn small_frames() {
    let shape = Shape { functions: 4, inner: 4, spawns: 3, frames: Frames::Small, ..Shape::USUAL };
    compare(2, 300, |random| random::table(random, shape));
}

#[test]
fn chains() {
    let shape = Shape { functions: 6, inner: 3, spawns: 6, frames: Frames::Large, chain: true, ..Shape::USUAL };
    compare(3, 600, |random| random::table(random, shape));
}

/// A spawn stands before another one by the first in which they differ: depth, lines of 16 bytes that the frames of
/// their targets take, number.
#[test]
fn order_by_pairs() {
    let mut random = Random::new(6);
    let (mut equal, mut turned) = (0, 0);
    for _ in 0..4_000 {
        let program = check(&random::table(&mut random, Shape { spawns: 12, ..Shape::USUAL })).unwrap();
        let depths = depths(&program);
        let of = |n: usize| (depths[program.nodes[n].owner], program.functions[program.nodes[n].target].frame);
        let mut spawns = order(&program);
        for pair in spawns.windows(2) {
            let [(depth, frame), (other_depth, other_frame)] = [of(pair[0]), of(pair[1])];
            let [lines, other_lines] = [frame, other_frame].map(|frame| (frame + 15) / 16);
            assert!(depth >= other_depth);
            if depth == other_depth {
                assert!(lines > other_lines || lines == other_lines && pair[0] < pair[1]);
                equal += (lines == other_lines && frame != other_frame) as u32;
                turned += (frame < other_frame) as u32;
            }
        }
        spawns.sort();
        assert!(spawns.into_iter().eq((0..program.nodes.len()).filter(|&n| program.nodes[n].sort == Sort::Spawn)));
    }
    println!("{equal} pairs with frames that count the same, {turned} that their bytes would turn round");
    assert!(equal > 500 && turned > 200);
}

/// "the fewest calls and spawns from an entry to it; entries have 0, and so has one that no entry reaches", one call or
/// spawn after another.
#[test]
fn depths_by_steps() {
    let mut random = Random::new(4);
    let mut deepest = 0;
    for _ in 0..2_000 {
        let shape = Shape { functions: 1 + random.below(16), inner: 2, chain: random.once_in(2), ..Shape::USUAL };
        let program = check(&random::table(&mut random, shape)).unwrap();
        let count = program.functions.len();
        let mut expected = vec![0; count];
        let mut reached: Vec<bool> = program.functions.iter().map(|f| f.entry).collect();
        for steps in 1..=count {
            let mut next = reached.clone();
            for node in program.nodes.iter().filter(|node| matches!(node.sort, Sort::Call | Sort::Spawn)) {
                if reached[node.owner] && !next[node.target] {
                    next[node.target] = true;
                    expected[node.target] = steps;
                }
            }
            reached = next;
        }
        assert_eq!(depths(&program), expected);
        deepest = deepest.max(*expected.iter().max().unwrap());
    }
    assert!(deepest >= 10);
}
