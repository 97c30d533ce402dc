//! Cases A to J of document 01, with the sizes that document 02's "Frames on 16-byte lines" makes of them. Of B and D it
//! says nothing: they come out by the rules.

mod common;

use common::*;
use second::choice::best;
use second::listing::listing;
use second::safety::one_choice;
use second::sizes::UNBOUNDED;
use second::sync::synchronising;
use second::table::check;

fn choice(bytes: &[u8]) -> Vec<u8> {
    best(bytes, 512, 2304).unwrap().0
}

/// The four sizes of a function for the best choice.
fn function(bytes: &[u8], f: usize) -> Vec<u32> {
    best(bytes, 512, 2304).unwrap().1[4 * f..4 * f + 4].to_vec()
}

#[test]
fn case_a_listing() {
    let text = "F 0 160 112 80 0\n\
                F 1 32 0 32 0\n\
                F 2 112 0 112 0\n\
                S 1 unguarded 32 32 32 32\n\
                S 3 unguarded 112 112 112 112\n";
    assert_eq!(listing(&case_a()), text);
}

/// The frames of 8 and 32 count as 16 and 32. Every sum that they are part of is unbounded, so nothing moves.
#[test]
fn case_b_one_unguarded_one_guarded() {
    assert_eq!(choice(&case_b()), [0, 0, 0, 0, 3, 2, 0, 0]);
    assert_eq!(function(&case_b(), 0), [UNBOUNDED, 0, UNBOUNDED, 0]);
    assert_eq!(function(&case_b(), 1), [UNBOUNDED, 0, UNBOUNDED, 0]);
}

#[test]
fn case_c_guarded() {
    assert_eq!(choice(&case_c_or_d(10)), [0, 2, 0, 0]);
    assert_eq!(function(&case_c_or_d(10), 0), [32, 16, 16, 0]);
}

/// The frames of 16 and 0 count as they are: Total and Pre are 16 + 0, and the loop adds up zeros.
#[test]
fn case_d_unguarded() {
    assert_eq!(choice(&case_c_or_d(0)), [0, 3, 0, 0]);
    assert_eq!(function(&case_c_or_d(0), 0), [16, 0, 16, 0]);
    assert_eq!(function(&case_c_or_d(0), 1), [0; 4]);
}

#[test]
fn case_e_inner_unmerged() {
    assert_eq!(choice(&case_e()), [0, 3, 0, 0, 1, 0, 0]);
    assert_eq!(function(&case_e(), 0), [32, 16, 32, 16]);
}

#[test]
fn case_f_not_synchronising() {
    assert_eq!(synchronising(&check(&case_f()).unwrap()), [0; 8]);
}

#[test]
fn case_g_unsafe() {
    let (safe, _) = one_choice(&case_b(), &[0, 0, 0, 0, 3, 3, 0, 0], 2304).unwrap();
    assert!(!safe);
}

#[test]
fn case_h_unbounded() {
    assert_eq!(function(&case_h(0), 0)[0], UNBOUNDED);
    assert_eq!(function(&case_h(1), 0)[0], UNBOUNDED);
    let text = "F 0 unbounded 0 unbounded 0\nF 1 unbounded 0 unbounded 0\n";
    assert_eq!([listing(&case_h(0)), listing(&case_h(1))], [text, text]);
}

#[test]
fn case_i_no_bytes() {
    assert_eq!(check(&[]).unwrap_err(), (5, 0));
    assert_eq!(listing(&[]), "refused 5 at 0\n");
}

#[test]
fn case_j_seven_bytes() {
    assert_eq!(check(&[0; 7]).unwrap_err(), (1, 0));
    assert_eq!(listing(&[0; 7]), "refused 1 at 0\n");
}

/// "Unmerged everywhere is always safe", and what the other choices of A to E give.
#[test]
fn other_choices() {
    assert!(one_choice(&case_a(), &[0, 1, 0, 1, 0, 0, 0], 40).unwrap().0);
    assert!(one_choice(&case_b(), &[0, 0, 0, 0, 1, 1, 0, 0], 40).unwrap().0);
    assert!(!one_choice(&case_b(), &[0, 0, 0, 0, 2, 3, 0, 0], 40).unwrap().0);
    assert!(!one_choice(&case_c_or_d(10), &[0, 3, 0, 0], 24).unwrap().0);
    // "In E the spawn in 1 would then merge whenever its parent is unmerged."
    assert!(!one_choice(&case_e(), &[0, 1, 0, 0, 2, 0, 0], 40).unwrap().0);
}
