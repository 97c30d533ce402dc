//! "What-if lists": lists of choices whose safety and sizes were worked out by hand.

mod common;

use common::*;
use second::safety::one_choice;
use second::sizes::UNBOUNDED;
use second::what_if::what_if;

/// The frames of 40, 24 and 100 count as 48, 32 and 112. Total of function 0 is 48 and the larger Total of its two
/// spawns, Post is that of the second, and Pre is 48 and that of the first. Nothing is unbounded, and nothing is left
/// behind a spawned function.
#[test]
fn three_choices_of_case_a() {
    let choices = [0, 1, 0, 1, 0, 0, 0, 0, 2, 0, 2, 0, 0, 0, 0, 3, 0, 1, 0, 0, 0];
    let (bits, sizes) = what_if(&case_a(), 3, &choices, 120).unwrap();
    assert_eq!(bits, 7);
    let leaves = [[32, 0, 32, 0], [112, 0, 112, 0]];
    let none = [0; 4];
    let sets = [
        [[48, 0, 48, 0], leaves[0], leaves[1], none, none, none, none, none, none, none],
        [[160, 112, 48, 0], leaves[0], leaves[1], none, [32, 32, 0, 0], none, [112, 112, 0, 0], none, none, none],
        [[80, 0, 80, 0], leaves[0], leaves[1], none, [32; 4], none, none, none, none, none],
    ];
    assert_eq!(sizes, sets.concat().concat());
}

/// The spawn in C's loop: unmerged, unguarded and guarded. Unguarded, each turn adds 16, which the leaf's frame of 10
/// counts as, to what is left of the last ones, and to what the next ones need.
#[test]
fn three_choices_of_case_c() {
    let choices = [0, 1, 0, 0, 0, 3, 0, 0, 0, 2, 0, 0];
    let (bits, sizes) = what_if(&case_c_or_d(10), 3, &choices, 100).unwrap();
    assert_eq!(bits, 0b101);
    let (leaf, none) = ([16, 0, 16, 0], [0; 4]);
    let sets = [
        [[16, 0, 16, 0], leaf, none, none, none, none],
        [[UNBOUNDED; 4], leaf, none, [16; 4], none, none],
        [[32, 16, 16, 0], leaf, none, [16, 16, 0, 0], none, none],
    ];
    assert_eq!(sizes, sets.concat().concat());
}

/// All nine. The frames of 4 count as 16. The inner spawn merged leaves 16 behind function 1, which is spawned, whatever
/// becomes of the outer one.
#[test]
fn all_choices_of_case_e() {
    let mut choices = Vec::new();
    for inner in 1..=3 {
        for outer in 1..=3 {
            choices.extend([0, outer, 0, 0, inner, 0, 0]);
        }
    }
    let (bits, sizes) = what_if(&case_e(), 9, &choices, 9 * 40).unwrap();
    assert_eq!(bits, 0b111);
    // On the stack of function 0: its own 16; with the outer spawn unguarded function 1's too; with both all three.
    assert_eq!(sizes[..4], [16, 0, 16, 0]);
    assert_eq!(sizes[2 * 40..2 * 40 + 4], [32, 16, 32, 16]);
    assert_eq!(sizes[8 * 40..8 * 40 + 8], [48, 32, 48, 32, 32, 16, 32, 16]);
}

/// "up to 16 choices": the last one has bit 15.
#[test]
fn sixteen_choices() {
    let mut choices = [0, 3, 0, 0].repeat(15);
    choices.extend([0, 1, 0, 0]);
    let (bits, sizes) = what_if(&case_c_or_d(10), 16, &choices, 16 * 24).unwrap();
    assert_eq!(bits, 0x8000);
    assert_eq!((sizes.len(), sizes[14 * 24], sizes[15 * 24]), (16 * 24, UNBOUNDED, 16));
    assert_eq!(what_if(&case_c_or_d(10), 16, &[0, 2, 0, 0].repeat(16), 16 * 24).unwrap().0, 0xFFFF);
}

/// "Each result equals that of the single call for the same choice."
#[test]
fn as_one_by_one() {
    let choices = [0, 0, 0, 0, 3, 2, 0, 0, 0, 0, 0, 0, 3, 3, 0, 0, 0, 0, 0, 0, 2, 2, 0, 0, 0, 0, 0, 0, 2, 3, 0, 0];
    let (bits, sizes) = what_if(&case_b(), 4, &choices, 160).unwrap();
    for (i, choice) in choices.chunks(8).enumerate() {
        let (safe, alone) = one_choice(&case_b(), choice, 40).unwrap();
        assert_eq!((bits >> i & 1 == 1, &sizes[40 * i..40 * (i + 1)]), (safe, &alone[..]));
    }
    assert_eq!(bits, 0b0101);
}

#[test]
fn refusals() {
    let refused = |number, choices: &[u8], buffer| what_if(&case_c_or_d(10), number, choices, buffer).unwrap_err();
    let good = [0, 1, 0, 0, 0, 2, 0, 0];
    // 12, whatever the list and the buffer are
    for number in [0, 17, 18, 1 << 32, (1 << 32) + 2, 1 << 40, 1 << 62, (1 << 62) + 2, 1 << 63, usize::MAX] {
        assert_eq!(refused(number, &good, 48), (12, number));
        assert_eq!(refused(number, &[], 0), (12, number));
        assert_eq!(refused(number, &[9; 68], 1), (12, number));
    }
    // 9: the length, and then the earliest byte
    assert_eq!(refused(2, &good[..7], 0), (9, 8));
    assert_eq!(refused(2, &[9; 9], 48), (9, 8));
    assert_eq!(refused(1, &good, 24), (9, 4));
    assert_eq!(refused(3, &good, 48), (9, 12));
    assert_eq!(refused(16, &[], 0), (9, 64));
    for place in 0..8 {
        for byte in [4, 255, if place % 4 == 1 { 0 } else { 2 }] {
            let mut wrong = good;
            wrong[place] = byte;
            assert_eq!(refused(2, &wrong, 0), (9, place));
            wrong[7] = 9;
            assert_eq!(refused(2, &wrong, 48), (9, place));
        }
    }
    // 11
    assert_eq!(refused(2, &good, 47), (11, 48));
    assert_eq!(refused(2, &good, 24), (11, 48));
    assert_eq!(refused(2, &good, 0), (11, 48));
    assert!(what_if(&case_c_or_d(10), 2, &good, 48).is_ok() && what_if(&case_c_or_d(10), 2, &good, 1 << 40).is_ok());
    // The table's own come first.
    assert_eq!(what_if(&[], 0, &[], 0).unwrap_err(), (5, 0));
    assert_eq!(what_if(&[0; 7], 17, &good, 48).unwrap_err(), (1, 0));
}
