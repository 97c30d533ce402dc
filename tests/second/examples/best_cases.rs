//! Reads the script of the program `worked_cases` from standard input and prints for each run of the best-choice call what
//! the call gives. A line of numbers is a run of records: kind, sort, a, b, c, then how many, and whether a and b go up by
//! one. `! CALL` begins the runs of a call, `= NAME` begins a table, `+ N` adds N bytes, `#` begins a comment, and
//! `? VERDICTS BUFFER` is a run on the table with a verdict buffer of so many bytes and a sizes buffer of so many numbers.

use second::choice::{best, order};
use second::listing::four;
use second::random::record;
use second::table::check;
use std::io::Read;

fn numbers(line: &str) -> Vec<usize> {
    line.split_whitespace().map(|word| word.parse().expect("a number")).collect()
}

fn joined<T: ToString>(word: &str, all: &[T]) -> String {
    let mut text = format!("  {word}");
    for x in all {
        text += " ";
        text += &x.to_string();
    }
    text
}

fn run(name: &str, bytes: &[u8], verdicts: usize, buffer: usize) {
    let found = best(bytes, verdicts, buffer);
    match &found {
        Ok(_) => println!("{name}: done"),
        Err((number, place)) => println!("{name}: refused {number} at {place}"),
    }
    if let Ok(program) = check(bytes) {
        println!("{}", joined("order", &order(&program)));
        if let Ok((choice, sizes)) = &found {
            println!("{}", joined("verdicts", choice));
            for f in 0..program.functions.len() {
                println!("  F {} {}", f, four(&sizes[4 * f..]));
            }
            println!("  kept {} {}", verdicts - choice.len(), buffer - sizes.len());
            return;
        }
    }
    println!("  kept {verdicts} {buffer}");
}

fn main() {
    let mut input = String::new();
    std::io::stdin().read_to_string(&mut input).expect("text");
    let mut bytes: Vec<u8> = Vec::new();
    let mut call = "";
    let mut name = "";
    for line in input.lines().filter(|line| !line.is_empty()) {
        let rest = line[1..].trim();
        match line.as_bytes()[0] {
            b'#' => {}
            b'!' => call = rest,
            b'=' => {
                name = rest;
                bytes.clear();
            }
            b'+' => bytes.extend(vec![0; numbers(rest)[0]]),
            b'?' if call == "best" => {
                let n = numbers(rest);
                run(name, &bytes, n[0], n[1]);
            }
            b'?' => {}
            _ => {
                let n = numbers(line);
                let given = |i: usize, else_: usize| n.get(i).copied().unwrap_or(else_);
                for i in 0..given(5, 1) {
                    bytes.extend(record(n[0] as u8, n[1] as u8, n[2] + i * given(6, 0), n[3] + i * given(7, 0), n[4]));
                }
            }
        }
    }
}
