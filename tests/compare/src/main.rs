//! Compares the proved library with the second implementation on random tables, choices, lists of choices, name lists
//! with reports, and buffers. Prints how many inputs of each kind were compared and what came up in them, or the first
//! difference, and then ends with status 1. Options: `--count N`, `--seed S`, `--from N`, the number of the first
//! input, and `--threads N`, which changes nothing but the time. With the usual count or more, it also ends with status
//! 1 if something came up too seldom, which `tally.rs`, `shown.rs` and `edges.rs` say; with fewer inputs nothing is
//! demanded of them.

mod answers;
mod edges;
mod files;
mod input;
mod lines;
mod list;
mod order;
mod refused;
mod rounded;
mod run;
mod shown;
mod spoiled;
mod stirred;
mod tally;
mod written;

use answers::{first, second, Answers, Calls};
use input::{input, BEHIND};
use run::run;
use std::fmt::Debug;

/// As many inputs as the demands are made for.
pub const COUNT: u64 = 300_000;

pub struct Options {
    count: u64,
    seed: u64,
    from: u64,
    threads: u64,
}

fn options(mut words: impl Iterator<Item = String>) -> Result<Options, String> {
    let cores = std::thread::available_parallelism().map_or(1, |n| n.get() as u64);
    let mut options = Options { count: COUNT, seed: 1, from: 0, threads: cores };
    while let Some(word) = words.next() {
        let value = words.next().ok_or(format!("{word}: a number is missing"))?;
        let value = value.parse().map_err(|_| format!("{word}: {value} is no number"))?;
        match word.as_str() {
            "--count" => options.count = value,
            "--seed" => options.seed = value,
            "--from" => options.from = value,
            "--threads" => options.threads = value,
            _ => return Err(format!("{word}: no such option")),
        }
    }
    if options.count == 0 || options.threads == 0 {
        return Err("nothing would be compared".to_string());
    }
    if options.from.checked_add(options.count).is_none() {
        return Err("--from: the numbers end before that many inputs".to_string());
    }
    options.threads = options.threads.min(cores);
    Ok(options)
}

fn differs<T: PartialEq + Debug>(call: &str, first: &T, second: &T) -> Option<String> {
    if first == second {
        return None;
    }
    Some(format!("{call}\n  the library: {first:?}\n  the second implementation: {second:?}"))
}

/// The first call whose answer, or whose buffers, differ; on the table, and on what the writer made of it.
fn difference(x: &Answers, y: &Answers) -> Option<String> {
    let of_written = match (&x.of_written, &y.of_written) {
        (Some(x), Some(y)) => difference_of_calls(x, y),
        (x, y) => differs("the table that is written, another one than it was", &x.is_some(), &y.is_some()),
    };
    difference_of_calls(&x.calls, &y.calls)
        .or_else(|| differs("ordered: what is wrong with it", &x.wrong, &y.wrong))
        .or_else(|| differs("ordered", &x.ordered, &y.ordered))
        .or_else(|| of_written.map(|text| format!("of the table that is written, {text}")))
        .or_else(|| differs("sizes of the table that is written, and of what it was made of", &x.sizes, &y.sizes))
}

fn difference_of_calls(x: &Calls, y: &Calls) -> Option<String> {
    differs("check: number; a, b, c", &x.check, &y.check)
        .or_else(|| differs("synchronising: number, place; words", &x.synchronising, &y.synchronising))
        .or_else(|| differs("call order: number, place; order", &x.call_order, &y.call_order))
        .or_else(|| differs("one choice: number, place; safe; sizes", &x.one_choice, &y.one_choice))
        .or_else(|| differs("what if: number, place; bits; sizes", &x.what_if, &y.what_if))
        .or_else(|| differs("what if, and each choice alone", &x.one_by_one, &y.one_by_one))
        .or_else(|| differs("best choice: number, place; verdicts; sizes", &x.best_choice, &y.best_choice))
        .or_else(|| differs("frames: number, place; table", &x.frames, &y.frames))
}

fn hex(bytes: &[u8]) -> String {
    bytes.chunks(8).map(|r| r.iter().map(|b| format!("{b:02x}")).collect::<String>()).collect::<Vec<_>>().join(" ")
}

fn report(seed: u64, number: u64) {
    let input = input(seed, number);
    let what = difference(&first(&input), &second(&input)).expect("a difference once more");
    println!("difference at input {number} of seed {seed}, {:?}: {what}", input.kind);
    println!("  table: {}", hex(&input.table));
    println!("  choice: {}", hex(&input.choice));
    let lengths = [input.words.len(), input.order.len(), input.verdicts.len(), input.sizes.len(), input.out.len()];
    let [words, order, verdicts, sizes, out] = lengths.map(|length| length - BEHIND);
    println!("  lengths: words {words}, call order {order}, verdicts {verdicts}, sizes {sizes}, ordered table {out}");
    let (list, room) = (&input.list, input.list.sizes.len() - BEHIND);
    println!("  list, told {} choices and {room} sizes: {}", list.number, hex(&list.choices));
    let [names, report] = [&input.files.names, &input.files.report].map(|file| &file[..file.len() - BEHIND]);
    println!("  names: {}", names.escape_ascii());
    println!("  report: {}", report.escape_ascii());
}

fn main() {
    let options = options(std::env::args().skip(1)).unwrap_or_else(|text| {
        eprintln!("{text}");
        std::process::exit(2);
    });
    // Said beforehand, so that it is known of a run that breaks off, too.
    println!("comparing {} inputs of seed {} from input {}", options.count, options.seed, options.from);
    let tally = run(&options, |input| (first(input), second(input))).unwrap_or_else(|number| {
        report(options.seed, number);
        std::process::exit(1);
    });
    println!("no difference in {} inputs of seed {}", options.count, options.seed);
    tally.print();
    if options.count < COUNT {
        println!("nothing is demanded of fewer than {COUNT} inputs");
        return;
    }
    let seldom = tally.seldom();
    for line in &seldom {
        println!("too seldom in seed {}: {line}", options.seed);
    }
    if !seldom.is_empty() {
        std::process::exit(1);
    }
}

#[cfg(test)]
mod tests {
    use super::*;
    use written::first_sizes;

    /// Changes one thing in the answers of the calls that take a table.
    fn wrong_call(x: &mut Calls, which: usize) {
        match which {
            0 => x.check.0 += 1,
            1 => x.check.1[2] ^= 1,
            2 => x.synchronising.1 ^= 1,
            3 => x.synchronising.2[0] ^= 1,
            4 => x.call_order.0 += 1,
            5 => x.call_order.1 ^= 1,
            6 => x.call_order.2[0] ^= 1,
            7 => *x.call_order.2.last_mut().expect("a byte") ^= 1 << 7,
            8 => x.one_choice.0 += 1,
            9 => x.one_choice.2 ^= 1,
            10 => *x.one_choice.3.last_mut().expect("a number") ^= 1,
            11 => x.what_if.1 ^= 1,
            12 => x.what_if.2 ^= 1 << 15,
            13 => *x.what_if.3.last_mut().expect("a number") ^= 1,
            14 => match &mut x.one_by_one {
                Ok(all) => all.push((true, Vec::new())),
                Err((_, place)) => *place ^= 1,
            },
            15 => x.best_choice.1 ^= 1,
            16 => x.best_choice.2[0] ^= 1,
            17 => x.best_choice.3[0] ^= 1,
            18 => x.frames.0 += 1,
            19 => x.frames.1 ^= 1,
            20 => x.frames.2[0] ^= 1,
            _ => *x.frames.2.last_mut().expect("a byte") ^= 1 << 7,
        }
    }

    /// How many things that one changes.
    const OF_CALLS: usize = 22;

    /// Changes one thing in the answers.
    fn wrong(answers: &Answers, which: usize) -> Answers {
        let mut x = answers.clone();
        match which.checked_sub(OF_CALLS) {
            None => wrong_call(&mut x.calls, which),
            Some(0) => x.ordered.number += 1,
            Some(1) => x.ordered.place ^= 1,
            Some(2) => x.ordered.length ^= 1,
            Some(3) => x.ordered.out[0] ^= 1,
            Some(4) => *x.ordered.out.last_mut().expect("a byte") ^= 1 << 7,
            Some(5) => x.wrong = Some("it is wrong"),
            Some(6) => x.of_written = if x.of_written.is_some() { None } else { Some(x.calls.clone()) },
            _ => x.sizes = if x.sizes.is_some() { None } else { Some(first_sizes(&input(1, 0), &[])) },
        }
        x
    }

    #[test]
    fn a_wrong_answer_is_seen() {
        for number in 0..300 {
            let found = first(&input(1, number));
            assert_eq!(difference(&found, &found), None);
            for which in 0..OF_CALLS + 8 {
                assert!(difference(&found, &wrong(&found, which)).is_some());
            }
        }
    }

    /// In what is answered to a table that was put in order, too.
    #[test]
    fn a_wrong_answer_to_what_was_written_is_seen() {
        let found: Vec<Answers> = (0..300).map(|number| first(&input(1, number))).collect();
        let of_written: Vec<&Answers> = found.iter().filter(|answers| answers.of_written.is_some()).collect();
        assert!(of_written.len() > 10);
        for answers in of_written {
            for which in 0..OF_CALLS {
                let mut other = answers.clone();
                wrong_call(other.of_written.as_mut().expect("answers"), which);
                assert!(difference(answers, &other).is_some());
            }
        }
    }

    #[test]
    fn equal_seeds_give_equal_inputs() {
        for number in 0..100 {
            let (x, y) = (input(7, number), input(7, number));
            assert!(x.table == y.table && x.choice == y.choice && x.sizes == y.sizes);
            assert!(
                x.list.choices == y.list.choices
                    && x.list.sizes == y.list.sizes
                    && x.order == y.order
                    && x.out == y.out
            );
            assert!(x.files.names == y.files.names && x.files.report == y.files.report);
            assert!(x.table != input(8, number).table);
        }
    }

    fn given(words: &str) -> Result<Options, String> {
        options(words.split_whitespace().map(str::to_string))
    }

    #[test]
    fn options_are_read() {
        let usual = given("").expect("options");
        assert_eq!((usual.count, usual.seed, usual.from), (COUNT, 1, 0));
        let all = given("--count 5 --seed 6 --from 7 --threads 1").expect("options");
        assert_eq!((all.count, all.seed, all.from, all.threads), (5, 6, 7, 1));
        for wrong in ["--count 0", "--threads 0", "--count", "--count x", "--help 1", "--from 18446744073709551615"] {
            assert!(given(wrong).is_err(), "{wrong}");
        }
    }
}
