//! "One order for edges": tables and what the writer makes of them, worked out by hand; and the writer against a walk
//! over all pairs of nodes, on random tables whose edges stand in any order and repeat.

mod common;

use common::*;
use second::choice::{best, unmerged};
use second::ordered::ordered;
use second::random::{self, record, Random, Shape, FULL};
use second::safety::safe;
use second::sizes::least;
use second::sync::synchronising;
use second::table::{check, check_free, Program, Refusal, Sort};

/// A function of so many plain nodes, with these edges.
fn of_edges(nodes: usize, edges: &[(usize, usize)]) -> Vec<u8> {
    let mut bytes = [record(1, 1, 0, nodes - 1, 258)].concat();
    bytes.extend(record(2, 0, 0, 0, 0).repeat(nodes));
    bytes.extend(edges.iter().flat_map(|&(from, to)| record(3, 0, from, to, 0)));
    bytes
}

/// That a table with the first edges is written as one with the others, into a buffer of just that length.
fn writes(nodes: usize, edges: &[(usize, usize)], expected: &[(usize, usize)]) {
    let new = of_edges(nodes, expected);
    assert_eq!(ordered(&of_edges(nodes, edges), new.len()), Ok(new));
}

#[test]
fn none_and_one() {
    writes(1, &[], &[]);
    writes(1, &[(0, 0)], &[(0, 0)]);
    writes(1, &[(0, 0), (0, 0)], &[(0, 0)]);
}

/// "Edges must now ascend by from-node and then to-node": a lower from-node is enough, whatever the to-nodes are.
#[test]
fn from_nodes_before_to_nodes() {
    writes(6, &[(1, 2), (0, 5)], &[(0, 5), (1, 2)]);
    writes(6, &[(0, 5), (1, 2)], &[(0, 5), (1, 2)]);
    writes(6, &[(1, 2), (1, 0), (0, 5), (0, 4)], &[(0, 4), (0, 5), (1, 0), (1, 2)]);
    // Whichever of the two bytes of a number tells them apart
    writes(300, &[(256, 1), (1, 256), (255, 299), (1, 255)], &[(1, 255), (1, 256), (255, 299), (256, 1)]);
}

/// "Each once."
#[test]
fn repeated_edges() {
    writes(3, &[(0, 1), (1, 2), (0, 1)], &[(0, 1), (1, 2)]);
    writes(3, &[(0, 1), (1, 2), (1, 2)], &[(0, 1), (1, 2)]);
    writes(3, &[(2, 2), (1, 2), (2, 2), (1, 2), (2, 2)], &[(1, 2), (2, 2)]);
    writes(3, &[(2, 1); 1024], &[(2, 1)]);
    let down: Vec<(usize, usize)> = (0..1024).rev().map(|i| (i / 512, i % 512)).collect();
    let up: Vec<(usize, usize)> = down.iter().rev().copied().collect();
    writes(512, &down, &up);
}

#[test]
fn ordered_tables_are_written_as_they_are() {
    for table in [case_a(), case_b(), case_c_or_d(10), case_e(), case_f(), case_h(1)] {
        assert_eq!(ordered(&table, table.len()), Ok(table));
    }
}

/// "The length written is returned; a buffer shorter than that gives 11."
#[test]
fn lengths() {
    let table = of_edges(3, &[(1, 2), (0, 1), (1, 2)]);
    for length in 0..48 {
        assert_eq!(ordered(&table, length), Err((11, 48)));
    }
    for length in [48, 49, 56, 12_800, 1 << 40] {
        assert_eq!(ordered(&table, length).map(|written| written.len()), Ok(48));
    }
}

/// "15 [..] the writer itself doesn't give it", and 1 to 8 come before 11.
#[test]
fn refusals() {
    let refused = |bytes: &[u8]| ordered(bytes, 0).unwrap_err();
    let free = of_edges(2, &[(1, 1), (0, 1)]);
    let with = |place: usize, record: [u8; 8]| {
        let mut bytes = free.clone();
        bytes[8 * place..8 * place + 8].copy_from_slice(&record);
        refused(&bytes)
    };
    assert_eq!(refused(&free), (11, 40));
    assert_eq!(refused(&free[..39]), (1, 4));
    assert_eq!(with(4, record(3, 1, 0, 1, 0)), (2, 4));
    assert_eq!(with(4, record(2, 0, 0, 0, 0)), (3, 4));
    assert_eq!(refused(&of_edges(3, &[(2, 1); 1025])), (4, 1028));
    assert_eq!(with(0, record(1, 0, 0, 1, 0)), (5, 0));
    assert_eq!(with(4, record(3, 0, 0, 2, 0)), (6, 4));
    let two = [record(1, 1, 0, 0, 0), record(1, 0, 1, 1, 0), record(2, 0, 0, 0, 0), record(2, 0, 1, 0, 0)];
    assert_eq!(refused(&[&two[..], &[record(3, 0, 1, 1, 0), record(3, 0, 0, 1, 0)]].concat().concat()), (7, 5));
    assert_eq!(with(2, record(2, 3, 0, 0, 0)), (8, 0));
    assert_eq!((refused(&[]), refused(&[0; 7])), ((5, 0), (1, 0)));
}

/// A table with its edges in any order and some of them repeated.
fn in_free_order(random: &mut Random, table: &[u8]) -> Vec<u8> {
    let before: Vec<[u8; 8]> = table.chunks(8).filter(|r| r[0] != 3).map(|r| r.try_into().unwrap()).collect();
    let mut edges: Vec<[u8; 8]> = table.chunks(8).filter(|r| r[0] == 3).map(|r| r.try_into().unwrap()).collect();
    for _ in 0..random.below(6) {
        if !edges.is_empty() && edges.len() < FULL[2] {
            edges.push(edges[random.below(edges.len())]);
        }
    }
    random.shuffle(&mut edges);
    [before, edges].concat().concat()
}

/// The edges of a program, found by asking of each pair of nodes in turn whether it is one.
fn pairs(program: &Program) -> Vec<(usize, usize)> {
    let nodes = 0..program.nodes.len();
    let all = nodes.clone().flat_map(|from| nodes.clone().map(move |to| (from, to)));
    all.filter(|edge| program.edges.contains(edge)).collect()
}

/// "What it writes is accepted, has the same function and node records and the same set of edges [..] Writing an ordered
/// table again gives its own bytes."
#[test]
fn any_order() {
    let mut random = Random::new(41);
    let (mut moved, mut shorter) = (0, 0);
    for _ in 0..4_000 {
        let table = random::table(&mut random, Shape::USUAL);
        let free = in_free_order(&mut random, &table);
        let program = check_free(&free).unwrap();
        let new = ordered(&free, free.len()).unwrap();
        let before = 8 * (program.functions.len() + program.nodes.len());
        assert_eq!(new[..before], free[..before]);
        assert_eq!(check(&new).unwrap().edges, pairs(&program));
        assert_eq!(ordered(&new, new.len()), Ok(new.clone()));
        assert_eq!(new, table);

        // How telling the tables are.
        moved += (free.len() == new.len() && free != new) as u32;
        shorter += (free.len() > new.len()) as u32;
    }
    println!("{moved} in another order alone, {shorter} with repeated edges");
    assert!(moved > 300 && shorter > 2_000);
}

/// "gives the same sizes for every choice", and so whether each is safe.
#[test]
fn equal_sizes() {
    let mut random = Random::new(42);
    for _ in 0..400 {
        let free = random::table(&mut random, Shape::USUAL);
        let free = in_free_order(&mut random, &free);
        let old = check_free(&free).unwrap();
        let new = check(&ordered(&free, free.len()).unwrap()).unwrap();
        let set = synchronising(&old);
        assert_eq!(set, synchronising(&new));
        for _ in 0..4 {
            let mut choice = unmerged(&old);
            let spawns = (0..old.nodes.len()).filter(|&n| old.nodes[n].sort == Sort::Spawn);
            spawns.for_each(|n| choice[n] += random.below(3) as u8);
            let [before, after] = [&old, &new].map(|program| least(program, &set, &choice).table);
            assert_eq!(before, after);
            assert_eq!(safe(&old, &set, &before), safe(&new, &set, &after));
        }
    }
}

/// 15: "an edge not above the one before it", place "the record".
#[test]
fn edges_that_do_not_ascend() {
    let refused = |edges: &[(usize, usize)]| -> Result<(), Refusal> { check(&of_edges(6, edges)).map(|_| ()) };
    for edges in [&[][..], &[(5, 0)], &[(0, 5), (1, 2)], &[(0, 1), (0, 2), (1, 0), (5, 5)]] {
        assert_eq!(refused(edges), Ok(()));
    }
    // Equal, a lower to-node, a lower from-node
    assert_eq!(refused(&[(0, 1), (0, 1)]), Err((15, 8)));
    assert_eq!(refused(&[(0, 1), (2, 1), (2, 0)]), Err((15, 9)));
    assert_eq!(refused(&[(1, 2), (0, 5)]), Err((15, 8)));
    // The first of several, and not one above that before it alone
    assert_eq!(refused(&[(0, 1), (3, 3), (2, 2), (1, 1)]), Err((15, 9)));
    assert_eq!(refused(&[(4, 0), (2, 1), (3, 1)]), Err((15, 8)));
    let bytes = of_edges(300, &[(1, 256), (1, 255)]);
    assert_eq!(check(&bytes).map(|_| ()), Err((15, 302)));
}

/// "after 8 and before 9 to 14"
#[test]
fn between_8_and_9() {
    let free = of_edges(2, &[(1, 1), (0, 1)]);
    assert_eq!(best(&free, 0, 0), Err((15, 4)));
    assert_eq!(second::safety::one_choice(&free, &[9], 0), Err((15, 4)));
    assert_eq!(second::what_if::what_if(&free, 17, &[9], 0), Err((15, 4)));
    assert_eq!(second::frames::frames(&free, b"", b"\n"), Err((15, 4)));
    assert_eq!(second::call_order::written_order(&free, 1), Err((15, 4)));
    assert_eq!(second::listing::listing(&free), "refused 15 at 4\n");
    for (place, record, number, found) in [
        (4, record(3, 1, 0, 1, 0), 2, 4),
        (4, record(3, 0, 0, 2, 0), 6, 4),
        (0, record(1, 0, 0, 1, 0), 5, 0),
        (2, record(2, 3, 0, 0, 0), 8, 0),
    ] {
        let mut bytes = free.clone();
        bytes[8 * place..8 * place + 8].copy_from_slice(&record);
        assert_eq!(check(&bytes).map(|_| ()), Err((number, found)));
    }
    assert_eq!(check(&free[..39]).map(|_| ()), Err((1, 4)));
}
