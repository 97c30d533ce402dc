//! What the tests of programs share: how a program is run, how it has to end, and what fails of it.

pub mod ends;
pub mod failures;
pub mod input;

/// Prints how many runs a program was held to, or what went wrong, and then ends with status 1. It is the first of these
/// words.
pub fn conclude(words: &[String], held: Result<usize, String>) {
    match held {
        Ok(runs) => println!("{}: {runs} runs, each as it has to be", words[0]),
        Err(text) => {
            println!("{}: {text}", words.join(" "));
            std::process::exit(1);
        }
    }
}
