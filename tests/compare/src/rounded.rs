//! What the frames of a table show of the multiples of 16 that they count as.

use second::sizes::counted;
use second::table::Program;
use std::ops::RangeInclusive;

/// The largest number of bytes that a size comes to.
const MOST: u32 = 65_520;

/// Whether the frames of two functions that these spawns have as their targets differ and count the same.
pub fn has_equal_frames(program: &Program, spawns: &[usize]) -> bool {
    let frames: Vec<u32> = spawns.iter().map(|&s| program.functions[program.nodes[s].target].frame).collect();
    frames.iter().any(|&x| frames.iter().any(|&y| x != y && counted(x) == counted(y)))
}

/// Whether a function has a frame of so many bytes.
pub fn has_frame(program: &Program, bytes: RangeInclusive<u32>) -> bool {
    program.functions.iter().any(|function| bytes.contains(&function.frame))
}

/// Whether one of these sizes is the largest number of bytes and a sum, for no frame counts as that.
pub fn adds_up_to_most(program: &Program, sizes: &[u32]) -> bool {
    sizes.contains(&MOST) && program.functions.iter().all(|function| counted(function.frame) != MOST)
}

#[cfg(test)]
mod tests {
    use super::*;
    use second::random::record;
    use second::table::check;

    /// An entry with frame 40 that spawns functions with these frames, in nodes 1, 2, ..
    fn program(frames: &[usize]) -> Program {
        let first = frames.len() + 1;
        let mut records = vec![record(1, 1, 0, 0, 40)];
        records.extend((0..frames.len()).map(|i| record(1, 0, first + i, first + i, frames[i])));
        records.push(record(2, 0, 0, 0, 0));
        records.extend((0..frames.len()).map(|i| record(2, 2, 0, 1 + i, 0)));
        records.extend((0..frames.len()).map(|i| record(2, 0, 1 + i, 0, 0)));
        check(&records.concat()).expect("a table")
    }

    #[test]
    fn frames() {
        for (frames, are_equal) in
            [(&[1, 16][..], true), (&[7, 65_535, 65_521], true), (&[16, 17], false), (&[8, 8], false), (&[0, 1], false)]
        {
            let spawns: Vec<usize> = (1..=frames.len()).collect();
            assert_eq!(has_equal_frames(&program(frames), &spawns), are_equal, "{frames:?}");
        }
        // The entry isn't spawned.
        assert!(!has_equal_frames(&program(&[48]), &[1]) && has_frame(&program(&[48]), 40..=40));
        assert!(has_frame(&program(&[48]), 48..=49) && !has_frame(&program(&[48]), 41..=47));
    }

    #[test]
    fn sums() {
        assert!(adds_up_to_most(&program(&[65_504]), &[16, 65_520]));
        assert!(!adds_up_to_most(&program(&[65_504]), &[65_504, 65_536]));
        for frame in [65_505, 65_520] {
            assert!(!adds_up_to_most(&program(&[frame]), &[65_520]));
        }
    }
}
