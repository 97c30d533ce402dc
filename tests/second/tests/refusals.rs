//! "Refused tables", the set's words, the depth, and the rounds.

mod common;

use common::*;
use second::choice::{beats, best, depths, order};
use second::listing::listing;
use second::random::record;
use second::safety::one_choice;
use second::sizes::{add, least, UNBOUNDED};
use second::sync::{holds, synchronising};
use second::table::check;

/// A table of two functions; records 0 and 1 functions, 2 to 5 nodes, 6 and 7 edges.
fn good() -> Vec<[usize; 5]> {
    vec![
        [1, 1, 0, 2, 4],
        [1, 0, 3, 3, 4],
        [2, 0, 0, 0, 0],
        [2, 2, 0, 1, 0],
        [2, 0, 0, 0, 0],
        [2, 0, 1, 0, 0],
        [3, 0, 0, 1, 0],
        [3, 0, 1, 2, 0],
    ]
}

fn with(changes: &[(usize, [usize; 5])]) -> Result<(), (u32, usize)> {
    let mut records = good();
    for &(place, r) in changes {
        records[place] = r;
    }
    check(&table(&records)).map(|_| ())
}

#[test]
fn one_by_one() {
    assert_eq!(with(&[]), Ok(()));
    // 1
    for extra in 1..8 {
        let mut bytes = table(&good());
        bytes.extend(vec![0; extra]);
        assert_eq!(check(&bytes).unwrap_err(), (1, 8));
    }
    // 2: kinds, sorts, and fields that must be 0
    assert_eq!(with(&[(7, [0, 0, 1, 2, 0])]), Err((2, 7)));
    assert_eq!(with(&[(7, [4, 0, 1, 2, 0])]), Err((2, 7)));
    assert_eq!(with(&[(1, [1, 2, 3, 3, 4])]), Err((2, 1)));
    assert_eq!(with(&[(2, [2, 4, 0, 0, 0])]), Err((2, 2)));
    assert_eq!(with(&[(2, [2, 0, 0, 1, 0])]), Err((2, 2)));
    assert_eq!(with(&[(3, [2, 3, 0, 1, 0])]), Err((2, 3)));
    assert_eq!(with(&[(3, [2, 2, 0, 1, 1])]), Err((2, 3)));
    assert_eq!(with(&[(6, [3, 1, 0, 1, 0])]), Err((2, 6)));
    assert_eq!(with(&[(6, [3, 0, 0, 1, 256])]), Err((2, 6)));
    // 3
    assert_eq!(with(&[(7, [2, 0, 0, 0, 0])]), Err((3, 7)));
    assert_eq!(with(&[(2, [3, 0, 0, 1, 0])]), Err((3, 3)));
    // 5: no entry
    assert_eq!(with(&[(0, [1, 0, 0, 2, 4])]), Err((5, 0)));
    // 6
    assert_eq!(with(&[(0, [1, 1, 4, 2, 4])]), Err((6, 0)));
    assert_eq!(with(&[(1, [1, 0, 3, 256, 4])]), Err((6, 1)));
    assert_eq!(with(&[(5, [2, 0, 2, 0, 0])]), Err((6, 5)));
    assert_eq!(with(&[(3, [2, 2, 0, 2, 0])]), Err((6, 3)));
    assert_eq!(with(&[(3, [2, 1, 0, 2, 0])]), Err((6, 3)));
    assert_eq!(with(&[(7, [3, 0, 1, 4, 0])]), Err((6, 7)));
    // 7
    assert_eq!(with(&[(0, [1, 1, 3, 2, 4])]), Err((7, 0)));
    assert_eq!(with(&[(1, [1, 0, 3, 2, 4])]), Err((7, 1)));
    assert_eq!(with(&[(7, [3, 0, 1, 3, 0])]), Err((7, 7)));
    // 8
    assert_eq!(with(&[(0, [1, 1, 1, 2, 4])]), Err((8, 0)));
    assert_eq!(with(&[(0, [1, 1, 0, 1, 4])]), Err((8, 0)));
    assert_eq!(with(&[(5, [2, 3, 1, 0, 0])]), Err((8, 1)));
    // 15, of document 02
    assert_eq!(with(&[(7, [3, 0, 0, 1, 0])]), Err((15, 7)));
    assert_eq!(with(&[(7, [3, 0, 0, 0, 0])]), Err((15, 7)));
    assert_eq!(with(&[(6, [3, 0, 2, 0, 0])]), Err((15, 7)));
}

#[test]
fn one_too_many() {
    for (kind, allowed, before) in [(1, 64, 0), (2, 512, 1), (3, 1024, 2)] {
        let full = |count: usize| {
            let mut bytes = Vec::new();
            for k in 1..=3 {
                let how_many = if k == kind { count } else { 1 };
                for _ in 0..how_many {
                    bytes.extend(record(k, (k == 1) as u8, 0, 0, 0));
                }
            }
            bytes
        };
        // 64 functions with one node are refused, and so is an edge repeated, but not by 4.
        assert!(!matches!(check(&full(allowed)), Err((4, _))));
        assert_eq!(check(&full(allowed + 1)).unwrap_err(), (4, before + allowed));
        assert_eq!(check(&full(allowed + 9)).unwrap_err(), (4, before + allowed));
    }
}

/// "The lowest number wins, then the earliest record or node."
#[test]
fn lowest_number_first() {
    // 15 at 7 and 8 at 0; 8 at 0 and 7 at 7; 7 at 1 and 6 at 7; 6 at 0 and 5; 5 and 3 at 7; 3 at 3 and 2 at 7.
    assert_eq!(with(&[(0, [1, 1, 1, 2, 4]), (7, [3, 0, 0, 1, 0])]), Err((8, 0)));
    assert_eq!(with(&[(0, [1, 1, 1, 2, 4]), (7, [3, 0, 1, 3, 0])]), Err((7, 7)));
    assert_eq!(with(&[(1, [1, 0, 0, 3, 4]), (7, [3, 0, 1, 9, 0])]), Err((6, 7)));
    assert_eq!(with(&[(0, [1, 0, 9, 2, 4])]), Err((5, 0)));
    assert_eq!(with(&[(0, [1, 0, 0, 2, 4]), (7, [2, 0, 0, 0, 0])]), Err((3, 7)));
    assert_eq!(with(&[(2, [3, 0, 0, 1, 0]), (7, [3, 0, 1, 2, 1])]), Err((2, 7)));
    // 6 twice, 7 twice
    assert_eq!(with(&[(2, [2, 0, 9, 0, 0]), (7, [3, 0, 1, 9, 0])]), Err((6, 2)));
    assert_eq!(with(&[(6, [3, 0, 0, 3, 0]), (7, [3, 0, 1, 3, 0])]), Err((7, 6)));
    // 4 and no entry
    let mut bytes = Vec::new();
    for _ in 0..65 {
        bytes.extend(record(1, 0, 0, 0, 0));
    }
    assert_eq!(check(&bytes).unwrap_err(), (4, 64));
}

#[test]
fn choices_and_buffers() {
    let bytes = table(&good());
    let one = |choice: &[u8], buffer| one_choice(&bytes, choice, buffer).map(|_| ());
    assert_eq!(one(&[0, 3, 0, 0], 24), Ok(()));
    assert_eq!(one(&[0, 3, 0, 0], 23), Err((11, 24)));
    assert_eq!(one(&[0, 3, 0], 0), Err((9, 4)));
    assert_eq!(one(&[9, 3, 0, 0, 0], 24), Err((9, 4)));
    assert_eq!(one(&[0, 0, 0, 0], 24), Err((9, 1)));
    assert_eq!(one(&[0, 4, 0, 1], 24), Err((9, 1)));
    assert_eq!(one(&[0, 1, 0, 1], 24), Err((9, 3)));
    assert_eq!(one_choice(&[], &[9], 0).unwrap_err(), (5, 0));

    let two = |verdicts, numbers| best(&bytes, verdicts, numbers).map(|_| ());
    assert_eq!(two(4, 24), Ok(()));
    assert_eq!(two(600, 2400), Ok(()));
    assert_eq!(two(3, 24), Err((10, 4)));
    assert_eq!(two(4, 23), Err((11, 24)));
    assert_eq!(two(3, 0), Err((10, 4)));
    assert_eq!(best(&[], 0, 0).unwrap_err(), (5, 0));
}

#[test]
fn listing_of_a_long_input() {
    assert_eq!(listing(&vec![0; 12_801]), "too long\n");
    assert_eq!(listing(&vec![0; 12_800]), "refused 2 at 0\n");
}

/// A sync at 64 and a call of its function at 130.
#[test]
fn words_of_the_set() {
    let mut records = vec![[1, 1, 0, 1, 0], [1, 0, 2, 3, 0]];
    for n in 0..131 {
        records.push(match n {
            0 | 1 => [2, 0, 0, 0, 0],
            64 => [2, 3, 1, 0, 0],
            130 => [2, 1, 0, 1, 0],
            _ => [2, 0, 1, 0, 0],
        });
    }
    records.push([3, 0, 2, 64, 0]);
    records.push([3, 0, 64, 3, 0]);
    let set = synchronising(&check(&table(&records)).unwrap());
    assert_eq!(set, [0, 1, 4, 0, 0, 0, 0, 0]);
    assert!(holds(&set, 64) && holds(&set, 130) && !holds(&set, 63) && !holds(&set, 131));
}

/// "With no such path at all, the call is synchronising."
#[test]
fn no_path_at_all() {
    let records = [
        [1, 1, 0, 2, 0],
        [1, 0, 3, 4, 0],
        [2, 0, 0, 0, 0],
        [2, 1, 0, 1, 0],
        [2, 0, 0, 0, 0],
        [2, 0, 1, 0, 0],
        [2, 0, 1, 0, 0],
        [3, 0, 0, 1, 0],
        [3, 0, 1, 2, 0],
    ];
    assert_eq!(synchronising(&check(&table(&records)).unwrap())[0], 2);
}

#[test]
fn sums() {
    assert_eq!(add(65_535, 0), 65_535);
    assert_eq!(add(65_535, 1), UNBOUNDED);
    assert_eq!(add(0, UNBOUNDED), UNBOUNDED);
    assert_eq!(add(UNBOUNDED, UNBOUNDED), UNBOUNDED);
}

/// F with frame 4: Total and Pre go up by 16 in every second round and are unbounded after 4,096 steps.
#[test]
fn rounds_are_counted() {
    let program = check(&case_f()).unwrap();
    let set = synchronising(&program);
    let found = least(&program, &set, &[0, 0, 0]);
    assert_eq!(found.table.functions[0], [UNBOUNDED, 0, UNBOUNDED, 0]);
    assert_eq!(found.table.nodes[1], [UNBOUNDED, 0, UNBOUNDED, 0]);
    // Function in rounds 1, 3, 5, .., 8,191; the call one round later; one round that raises nothing.
    assert_eq!(found.rounds, 8_193);
}

#[test]
fn depth_and_order() {
    let a = check(&case_a()).unwrap();
    assert_eq!(depths(&a), [0, 1, 1]);
    assert_eq!(order(&a), [3, 1]);
    let e = check(&case_e()).unwrap();
    assert_eq!(depths(&e), [0, 1, 2]);
    assert_eq!(order(&e), [4, 1]);
}

/// Function 0 spawns frames of 1, 65,535, 1 and 0, and function 1, one deeper, a frame of 0.
#[test]
fn larger_frames_first() {
    let bytes = table(&[
        [1, 1, 0, 0, 4],
        [1, 0, 5, 5, 1],
        [1, 0, 6, 6, 65_535],
        [1, 0, 7, 7, 1],
        [1, 0, 9, 9, 0],
        [2, 0, 0, 0, 0],
        [2, 2, 0, 1, 0],
        [2, 2, 0, 2, 0],
        [2, 2, 0, 3, 0],
        [2, 2, 0, 4, 0],
        [2, 0, 1, 0, 0],
        [2, 0, 2, 0, 0],
        [2, 0, 3, 0, 0],
        [2, 2, 1, 4, 0],
        [2, 0, 4, 0, 0],
    ]);
    assert_eq!(order(&check(&bytes).unwrap()), [8, 2, 1, 3, 4]);
}

#[test]
fn which_beats_which() {
    let order = [2, 0, 1];
    assert!(beats(&order, &[1, 1, 2], &[3, 3, 1]));
    assert!(!beats(&order, &[3, 3, 1], &[1, 1, 2]));
    assert!(beats(&order, &[2, 1, 2], &[1, 3, 3]));
    assert!(beats(&order, &[2, 2, 3], &[3, 3, 2]));
    assert!(beats(&order, &[3, 2, 2], &[2, 3, 2]));
    assert!(!beats(&order, &[3, 2, 2], &[3, 2, 2]));
}
