//! "Frames on 16-byte lines": what frames count as, and what becomes of sizes and of the order, worked out by hand.

mod common;

use common::*;
use second::choice::{best, order, order_by, unmerged};
use second::safety::one_choice;
use second::sizes::{counted, UNBOUNDED};
use second::table::{check, Program};

/// "A frame counts as its bytes rounded up to a multiple of 16 [..] Frames of 65,521 and more are unbounded by that."
#[test]
fn what_frames_count_as() {
    for (frame, expected) in [(0, 0), (1, 16), (15, 16), (16, 16), (17, 32), (32, 32), (65_504, 65_504)] {
        assert_eq!(counted(frame), expected);
    }
    for frame in [65_505, 65_519, 65_520] {
        assert_eq!(counted(frame), 65_520);
    }
    for frame in [65_521, 65_534, 65_535] {
        assert_eq!(counted(frame), UNBOUNDED);
    }
    // The least multiple that is not below it, of 0 to 4,095 times 16
    for frame in 1..=65_520 {
        let lines = counted(frame) / 16;
        assert!(counted(frame) % 16 == 0 && 16 * lines >= frame && 16 * (lines - 1) < frame);
    }
}

/// The sizes of function 0 for the choice that merges nothing.
fn sizes(bytes: &[u8]) -> [u32; 4] {
    let choice = unmerged(&check(bytes).unwrap());
    one_choice(bytes, &choice, 2304).unwrap().1[..4].try_into().unwrap()
}

/// A table keeps its bytes: the frame that is read of it is not rounded, and Total and Pre are.
#[test]
fn a_frame_alone() {
    for (frame, size) in [(0, 0), (1, 16), (16, 16), (17, 32), (65_505, 65_520), (65_520, 65_520)] {
        let bytes = table(&[[1, 1, 0, 0, frame], [2, 0, 0, 0, 0]]);
        assert_eq!(check(&bytes).unwrap().functions[0].frame, frame as u32);
        assert_eq!(sizes(&bytes), [size, 0, size, 0]);
    }
    for frame in [65_521, 65_535] {
        let bytes = table(&[[1, 1, 0, 0, frame], [2, 0, 0, 0, 0]]);
        assert_eq!(check(&bytes).unwrap().functions[0].frame, frame as u32);
        assert_eq!(sizes(&bytes), [UNBOUNDED, 0, UNBOUNDED, 0]);
    }
}

/// Each frame is rounded by itself: 1 on 1 is 32 and not 16, and 17 on 17 is 64 and not 48.
#[test]
fn a_frame_on_another() {
    for (frame, called, size) in [
        (0, 1, 16),
        (1, 0, 16),
        (1, 1, 32),
        (8, 8, 32),
        (16, 16, 32),
        (17, 17, 64),
        (1, 31, 48),
        (0, 65_520, 65_520),
        (65_520, 0, 65_520),
        (16, 65_504, 65_520),
        (1, 65_504, 65_520),
        (1, 65_489, 65_520),
        (32_752, 32_768, 65_520),
        (32_752, 32_753, 65_520),
    ] {
        assert_eq!(sizes(&calling(frame, called)), [size, 0, size, 0], "{frame} {called}");
    }
    // 1 + 65,505 and 32,753 + 32,753 are less than 65,535, and unbounded all the same.
    for (frame, called) in [
        (0, 65_521),
        (65_521, 0),
        (1, 65_520),
        (1, 65_505),
        (16, 65_505),
        (65_505, 1),
        (32_753, 32_753),
        (32_768, 32_768),
        (65_521, 65_521),
    ] {
        assert_eq!(sizes(&calling(frame, called)), [UNBOUNDED, 0, UNBOUNDED, 0], "{frame} {called}");
    }
}

/// An entry with frame 1, with two spawns of a leaf in a line.
fn two_spawns(leaf_frame: usize) -> Vec<u8> {
    table(&[
        [1, 1, 0, 3, 1],
        [1, 0, 4, 4, leaf_frame],
        [2, 0, 0, 0, 0],
        [2, 2, 0, 1, 0],
        [2, 2, 0, 1, 0],
        [2, 0, 0, 0, 0],
        [2, 0, 1, 0, 0],
        [3, 0, 0, 1, 0],
        [3, 0, 1, 2, 0],
        [3, 0, 2, 3, 0],
    ])
}

/// Post is 2 times the leaf's, the path 1-2-3; Through the same; Total and Pre are 16 more. Up to 16 + 2 x 32,752 all of
/// it is bounded. With 65,520 each spawn is, and no cut has two unbounded sides. With 65,521 both are, on the two sides
/// of a cut: the second spawn is guarded, and its Pre and Through are 0.
#[test]
fn a_byte_more_takes_a_merge_away() {
    let of_best = |leaf_frame| {
        let (choice, sizes) = best(&two_spawns(leaf_frame), 512, 2304).unwrap();
        (choice, sizes[..4].to_vec())
    };
    assert_eq!(of_best(1), (vec![0, 3, 3, 0, 0], vec![48, 32, 48, 32]));
    assert_eq!(of_best(32_737), (vec![0, 3, 3, 0, 0], vec![65_520, 65_504, 65_520, 65_504]));
    assert_eq!(of_best(32_752), (vec![0, 3, 3, 0, 0], vec![65_520, 65_504, 65_520, 65_504]));
    for leaf_frame in [32_753, 65_519, 65_520] {
        assert_eq!(of_best(leaf_frame), (vec![0, 3, 3, 0, 0], vec![UNBOUNDED; 4]));
    }
    for leaf_frame in [65_521, 65_535] {
        assert_eq!(of_best(leaf_frame), (vec![0, 3, 2, 0, 0], vec![UNBOUNDED; 4]));
    }
}

/// An entry that spawns leaves with these frames, in nodes 1, 2, 3, ..
fn spawning(frames: &[usize]) -> Program {
    let mut records = vec![[1, 1, 0, 0, 40]];
    records.extend((0..frames.len()).map(|i| [1, 0, frames.len() + 1 + i, frames.len() + 1 + i, frames[i]]));
    records.push([2, 0, 0, 0, 0]);
    records.extend((0..frames.len()).map(|i| [2, 2, 0, i + 1, 0]));
    records.extend((0..frames.len()).map(|i| [2, 0, i + 1, 0, 0]));
    check(&table(&records)).unwrap()
}

fn order_of(frames: &[usize]) -> Vec<usize> {
    order(&spawning(frames))
}

/// "The order of Ask 2 compares those too": frames that count the same are equal, and the smaller number goes first.
#[test]
fn equal_frames_in_the_order() {
    for equal in [[1, 16], [1, 15], [17, 32], [65_505, 65_520], [65_521, 65_535], [0, 0], [65_535, 65_535]] {
        let [x, y] = equal;
        assert_eq!((order_of(&[x, y]), order_of(&[y, x])), (vec![1, 2], vec![1, 2]), "{x} {y}");
    }
    for (smaller, larger) in [(0, 1), (16, 17), (1, 17), (15, 65_521), (65_504, 65_505), (65_520, 65_521)] {
        assert_eq!(order_of(&[smaller, larger]), [2, 1], "{smaller} {larger}");
        assert_eq!(order_of(&[larger, smaller]), [1, 2], "{smaller} {larger}");
    }
    // 6 and 7 are unbounded; 5 and 8 count as 65,520, 3 and 10 as 32, 1, 2 and 4 as 16, and 9 as 0.
    let frames = [1, 16, 17, 15, 65_505, 65_521, 65_535, 65_520, 0, 32];
    assert_eq!(order_of(&frames), [6, 7, 5, 8, 3, 10, 1, 2, 4, 9]);
}

/// By their bytes, as tests take them to see where it matters.
#[test]
fn order_by_bytes() {
    let of = |frames: &[usize]| order_by(&spawning(frames), |bytes| bytes);
    assert_eq!((of(&[1, 16]), of(&[16, 1]), of(&[16, 17])), (vec![2, 1], vec![1, 2], vec![2, 1]));
    assert_eq!(of(&[65_521, 0, 65_535]), [3, 1, 2]);
}
