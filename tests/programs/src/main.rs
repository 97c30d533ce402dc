//! Runs programs that read a table with an input that fails and with an output that fails. A failure has to end them
//! with status 1, one line that names it on standard error and nothing on standard output: what was read before it is
//! not the table, even where it is accepted. A refused table and one that is too long are no failures.
//! Prints how many runs each program was held to, or the first that went wrong, and then ends with status 1.
//! Arguments: the programs.

use programs::failures::{end, run, Failure, Words, BEFORE_EDGES, FAILURES, TABLE};
use programs::input::Input;
use std::process::Output;

/// An error where the end of a program that had this failure is not as it has to be.
fn ends_by(output: &Output, side: &str, name: &str) -> Result<(), String> {
    let (printed, text) = (String::from_utf8_lossy(&output.stdout), String::from_utf8_lossy(&output.stderr));
    if !printed.is_empty() {
        return Err(format!("it prints {printed:?}"));
    }
    if !text.ends_with('\n') || text.lines().count() != 1 || !text.contains(side) || !text.contains(name) {
        return Err(format!("no line of {side:?} and {name:?} on standard error: {text:?}"));
    }
    if output.status.code() != Some(1) {
        return Err(format!("it ends with {}", output.status));
    }
    Ok(())
}

fn held(program: Words, failure: &Failure) -> Result<(), String> {
    end(program, failure)
        .and_then(|output| ends_by(&output, failure.side, failure.name))
        .map_err(|text| format!("{}: {text}", failure.what))
}

/// Inputs that are no failure, and whether a text is their answer. Parts of the table have answers of their own, so a
/// program that takes a failure for the end would print one.
fn answers() -> [(Vec<u8>, fn(&str) -> bool); 6] {
    let accepted = |text: &str| !text.is_empty() && !text.starts_with("refused");
    [
        (TABLE.to_vec(), accepted),
        (TABLE[..BEFORE_EDGES].to_vec(), accepted),
        (TABLE[..13].to_vec(), |text| text == "refused 1 at 1\n"),
        (Vec::new(), |text| text == "refused 5 at 0\n"),
        // The last edge once more
        ([&TABLE[..], &TABLE[64..]].concat(), |text| text == "refused 15 at 9\n"),
        (vec![0; 12_801], |text| text == "too long\n"),
    ]
}

fn answered(program: Words, input: &[u8], good: fn(&str) -> bool) -> Result<(), String> {
    let output = run(program, "", Input::Whole(input))?;
    if good(&String::from_utf8_lossy(&output.stdout)) && output.stderr.is_empty() && output.status.success() {
        return Ok(());
    }
    Err(format!("an input of {} bytes: {output:?}", input.len()))
}

fn hold(program: &str) -> Result<(), String> {
    FAILURES.iter().try_for_each(|failure| held(&[program], failure))?;
    answers().iter().try_for_each(|(input, good)| answered(&[program], input, *good))?;
    println!("{program}: {} failures and {} answers, each as it has to be", FAILURES.len(), answers().len());
    Ok(())
}

fn main() {
    let programs: Vec<String> = std::env::args().skip(1).collect();
    if programs.is_empty() {
        println!("nothing to run");
        std::process::exit(1);
    }
    for program in &programs {
        if let Err(text) = hold(program) {
            println!("{program}: {text}");
            std::process::exit(1);
        }
    }
}

#[cfg(test)]
mod tests {
    use super::*;
    use programs::failures::{How, NO_FILE, READING};

    /// Programs that take a failure wrongly, each in a way of its own: by reading to it and counting what there is, by
    /// saying nothing, and by a line with no status.
    const WRONG: [&str; 3] = [
        "count=$(cat 2>/dev/null | wc -c); echo \"$count bytes\" 2>/dev/null; exit 0",
        "cat >/dev/null 2>&1; exit 1",
        "echo 'Reading, Writing: Is a directory, Bad file descriptor, Resource temporarily unavailable, No space left on device' >&2",
    ];

    #[test]
    fn a_failure_that_is_ignored_is_seen() {
        for script in WRONG {
            for failure in &FAILURES {
                assert!(held(&["sh", "-c", script], failure).is_err(), "{script}: {}", failure.what);
            }
        }
    }

    /// `cat` prints what it reads before it fails.
    #[test]
    fn a_part_that_is_printed_is_seen() {
        for failure in FAILURES.iter().filter(|failure| matches!(failure.how, How::Late(1..))) {
            let text = held(&["cat"], failure).expect_err(failure.what);
            assert!(text.starts_with(&format!("{}: it prints ", failure.what)), "{text}");
        }
    }

    /// A program that does all right but for its status, or prints a line too many.
    #[test]
    fn each_part_of_an_end_counts() {
        let end =
            |script: &str| ends_by(&run(&["sh", "-c", script], "", Input::Whole(&[])).expect("sh"), READING, NO_FILE);
        assert_eq!(end("echo 'Reading: Bad file descriptor' >&2; exit 1"), Ok(()));
        for script in [
            "echo 'Reading: Bad file descriptor' >&2; exit 2",
            "echo 'Reading: Bad file descriptor' >&2; kill -s KILL $$",
            "echo 'Reading: Bad file descriptor' >&2; echo 'and more' >&2; exit 1",
            "echo 'Reading: Is a directory' >&2; exit 1",
            "echo 'Writing: Bad file descriptor' >&2; exit 1",
            "echo; echo 'Reading: Bad file descriptor' >&2; exit 1",
        ] {
            assert!(end(script).is_err(), "{script}");
        }
    }

    #[test]
    fn another_answer_is_seen() {
        let end = |script: &str| answered(&["sh", "-c", script], &[0], |text| text == "A\n");
        assert_eq!(end("echo A"), Ok(()));
        for script in ["echo B", "echo A; exit 1", "echo A; echo B >&2", "exit 0"] {
            assert!(end(script).is_err(), "{script}");
        }
    }
}
