//! Goes over the inputs in several threads. What comes of it is the same for any number of them.

use crate::answers::Answers;
use crate::input::{input, Input};
use crate::tally::Tally;
use crate::{difference, Options};
use std::sync::atomic::{AtomicU64, Ordering::SeqCst};
use std::sync::Mutex;

/// How many inputs a thread takes at a time.
const BLOCK: u64 = 100;

/// What the threads share.
struct Shared {
    /// How many inputs are taken.
    taken: AtomicU64,
    /// The lowest number with a difference, or the greatest number of all.
    lowest: AtomicU64,
    tally: Mutex<Tally>,
}

/// Compares block after block, up to the first difference.
fn work(options: &Options, shared: &Shared, answers: &(impl Fn(&Input) -> (Answers, Answers) + Sync)) {
    let mut tally = Tally::default();
    loop {
        // Numbers are taken in order, so that all below the lowest difference are compared.
        let start = shared.taken.fetch_add(BLOCK, SeqCst);
        if start >= options.count {
            break;
        }
        for i in start..options.count.min(start + BLOCK) {
            let number = options.from + i;
            if number > shared.lowest.load(SeqCst) {
                return;
            }
            let input = input(options.seed, number);
            let (found, expected) = answers(&input);
            if difference(&found, &expected).is_some() {
                shared.lowest.fetch_min(number, SeqCst);
                return;
            }
            tally.add(&input, &expected);
        }
    }
    shared.tally.lock().expect("no thread fails").join(&tally);
}

/// What came up in all inputs, or the lowest number of one whose two answers differ.
pub fn run(options: &Options, answers: impl Fn(&Input) -> (Answers, Answers) + Sync) -> Result<Tally, u64> {
    let shared =
        Shared { taken: AtomicU64::new(0), lowest: AtomicU64::new(u64::MAX), tally: Mutex::new(Tally::default()) };
    std::thread::scope(|scope| {
        for _ in 0..options.threads {
            scope.spawn(|| work(options, &shared, &answers));
        }
    });
    match shared.lowest.into_inner() {
        u64::MAX => Ok(shared.tally.into_inner().expect("no thread failed")),
        number => Err(number),
    }
}

#[cfg(test)]
mod tests {
    use super::*;
    use crate::answers::second;
    use std::collections::HashSet;

    const SOME: Options = Options { count: 2_050, seed: 3, from: 70, threads: 1 };

    #[test]
    fn any_number_of_threads_sees_the_same() {
        let tally = |threads| run(&Options { threads, ..SOME }, |input| (second(input), second(input)));
        assert!(tally(1).is_ok() && tally(2) == tally(1) && tally(7) == tally(1));
        assert!(run(&Options { count: 2_049, ..SOME }, |input| (second(input), second(input))) != tally(1));
    }

    /// Answers that differ in these inputs.
    fn wrong_in(numbers: impl Iterator<Item = u64>) -> impl Fn(&Input) -> (Answers, Answers) + Sync {
        let wrong: HashSet<[usize; 4]> = numbers.map(|number| input(SOME.seed, number).numbers).collect();
        move |input| {
            let (found, mut expected) = (second(input), second(input));
            expected.calls.check.0 += wrong.contains(&input.numbers) as u32;
            (found, expected)
        }
    }

    #[test]
    fn any_number_of_threads_finds_the_first_difference() {
        let end = SOME.from + SOME.count;
        for first in [SOME.from, SOME.from + 1_234, end - 1] {
            let answers = wrong_in((first..end).step_by(3));
            for threads in [1, 2, 7] {
                assert_eq!(run(&Options { threads, ..SOME }, &answers), Err(first));
            }
        }
        assert!(run(&SOME, wrong_in([SOME.from - 1, end].into_iter())).is_ok());
    }
}
