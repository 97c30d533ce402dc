//! The tables of document 01's cases.
#![allow(dead_code)]

use second::random::record;

/// A table of records kind, sort, a, b, c.
pub fn table(records: &[[usize; 5]]) -> Vec<u8> {
    let mut bytes = Vec::new();
    for r in records {
        bytes.extend(record(r[0] as u8, r[1] as u8, r[2], r[3], r[4]));
    }
    bytes
}

/// "function 0 (entry, frame 40): plain 0, spawn 1 of function 1, sync 2, spawn 3 of function 2, plain 4, edges in a
/// line. Frames 24 and 100."
pub fn case_a() -> Vec<u8> {
    table(&[
        [1, 1, 0, 4, 40],
        [1, 0, 5, 5, 24],
        [1, 0, 6, 6, 100],
        [2, 0, 0, 0, 0],
        [2, 2, 0, 1, 0],
        [2, 3, 0, 0, 0],
        [2, 2, 0, 2, 0],
        [2, 0, 0, 0, 0],
        [2, 0, 1, 0, 0],
        [2, 0, 2, 0, 0],
        [3, 0, 0, 1, 0],
        [3, 0, 1, 2, 0],
        [3, 0, 2, 3, 0],
        [3, 0, 3, 4, 0],
    ])
}

/// "function 0 (entry, 8) calls 1: nodes 0, call 1, 2. Function 1 (32): plain 3, spawns 4 and 5 of itself, sync 6,
/// plain 7, in a line."
pub fn case_b() -> Vec<u8> {
    table(&[
        [1, 1, 0, 2, 8],
        [1, 0, 3, 7, 32],
        [2, 0, 0, 0, 0],
        [2, 1, 0, 1, 0],
        [2, 0, 0, 0, 0],
        [2, 0, 1, 0, 0],
        [2, 2, 1, 1, 0],
        [2, 2, 1, 1, 0],
        [2, 3, 1, 0, 0],
        [2, 0, 1, 0, 0],
        [3, 0, 0, 1, 0],
        [3, 0, 1, 2, 0],
        [3, 0, 3, 4, 0],
        [3, 0, 4, 5, 0],
        [3, 0, 5, 6, 0],
        [3, 0, 6, 7, 0],
    ])
}

/// "entry, frame 16: plain 0, spawn 1 of a leaf (frame 10), plain 2; edges 0-1, 1-1, 1-2." D is "C with leaf frame 0".
pub fn case_c_or_d(leaf_frame: usize) -> Vec<u8> {
    table(&[
        [1, 1, 0, 2, 16],
        [1, 0, 3, 3, leaf_frame],
        [2, 0, 0, 0, 0],
        [2, 2, 0, 1, 0],
        [2, 0, 0, 0, 0],
        [2, 0, 1, 0, 0],
        [3, 0, 0, 1, 0],
        [3, 0, 1, 1, 0],
        [3, 0, 1, 2, 0],
    ])
}

/// "0 (entry) spawns 1, 1 spawns 2, each as plain, spawn, plain in a line; frames 4."
pub fn case_e() -> Vec<u8> {
    table(&[
        [1, 1, 0, 2, 4],
        [1, 0, 3, 5, 4],
        [1, 0, 6, 6, 4],
        [2, 0, 0, 0, 0],
        [2, 2, 0, 1, 0],
        [2, 0, 0, 0, 0],
        [2, 0, 1, 0, 0],
        [2, 2, 1, 2, 0],
        [2, 0, 1, 0, 0],
        [2, 0, 2, 0, 0],
        [3, 0, 0, 1, 0],
        [3, 0, 1, 2, 0],
        [3, 0, 3, 4, 0],
        [3, 0, 4, 5, 0],
    ])
}

/// "an entry of plain, call of itself, plain in a line"
pub fn case_f() -> Vec<u8> {
    table(&[[1, 1, 0, 2, 4], [2, 0, 0, 0, 0], [2, 1, 0, 0, 0], [2, 0, 0, 0, 0], [3, 0, 0, 1, 0], [3, 0, 1, 2, 0]])
}

/// "frame 0 calling (plain, call, plain in a line) frame 65,535", or another frame calling it.
pub fn case_h(frame: usize) -> Vec<u8> {
    calling(frame, 65_535)
}

/// The same with another frame that is called.
pub fn calling(frame: usize, called: usize) -> Vec<u8> {
    table(&[
        [1, 1, 0, 2, frame],
        [1, 0, 3, 3, called],
        [2, 0, 0, 0, 0],
        [2, 1, 0, 1, 0],
        [2, 0, 0, 0, 0],
        [2, 0, 1, 0, 0],
        [3, 0, 0, 1, 0],
        [3, 0, 1, 2, 0],
    ])
}
