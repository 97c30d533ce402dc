//! What fails of a program that reads a table: its input or its output.

use crate::input::{self, Input};
use std::process::{Command, Output};

/// Case C of document 01.
#[rustfmt::skip]
pub const TABLE: [u8; 72] = [
    1, 1, 0, 0, 2, 0, 16, 0,
    1, 0, 3, 0, 3, 0, 10, 0,
    2, 0, 0, 0, 0, 0, 0, 0,
    2, 2, 0, 0, 1, 0, 0, 0,
    2, 0, 0, 0, 0, 0, 0, 0,
    2, 0, 1, 0, 0, 0, 0, 0,
    3, 0, 0, 0, 1, 0, 0, 0,
    3, 0, 1, 0, 1, 0, 0, 0,
    3, 0, 1, 0, 2, 0, 0, 0,
];

/// So many of its bytes come before the edges. They are accepted too, and their spawn comes out unguarded.
pub const BEFORE_EDGES: usize = 48;

/// What fails, and how the error names it: whether it is reading or writing, and why it fails.
pub struct Failure {
    pub what: &'static str,
    pub how: How,
    pub side: &'static str,
    pub name: &'static str,
}

pub enum How {
    /// As the shell redirects it. The input is the table where it is left as it is.
    Redirected(&'static str),
    /// The bytes of the table from this one on come late, and the input does not wait for them.
    Late(usize),
}

pub const READING: &str = "Reading";
pub const WRITING: &str = "Writing";

pub const NO_FILE: &str = "Bad file descriptor";
const NOT_YET: &str = "Resource temporarily unavailable";

pub const FAILURES: [Failure; 9] = [
    Failure { what: "a directory as input", how: How::Redirected("<."), side: READING, name: "Is a directory" },
    Failure { what: "a closed input", how: How::Redirected("<&-"), side: READING, name: NO_FILE },
    Failure { what: "a write-only input", how: How::Redirected("0>/dev/null"), side: READING, name: NO_FILE },
    Failure { what: "an input that is late from the start", how: How::Late(0), side: READING, name: NOT_YET },
    Failure { what: "an input that is late within a record", how: How::Late(13), side: READING, name: NOT_YET },
    Failure { what: "an input whose edges are late", how: How::Late(BEFORE_EDGES), side: READING, name: NOT_YET },
    Failure { what: "a closed output", how: How::Redirected(">&-"), side: WRITING, name: NO_FILE },
    Failure { what: "a read-only output", how: How::Redirected("1</dev/null"), side: WRITING, name: NO_FILE },
    Failure {
        what: "a full output",
        how: How::Redirected(">/dev/full"),
        side: WRITING,
        name: "No space left on device",
    },
];

/// A program with its arguments.
pub type Words<'a> = &'a [&'a str];

pub fn run(program: Words, redirection: &str, input: Input) -> Result<Output, String> {
    let mut command = Command::new("sh");
    command.args(["-c", &format!("exec \"$@\" {redirection}"), "sh"]).args(program);
    input::output(command, input).map_err(|error| error.to_string())
}

/// How the program ends with this failure.
pub fn end(program: Words, failure: &Failure) -> Result<Output, String> {
    match failure.how {
        How::Redirected(redirection) => run(program, redirection, Input::Whole(&TABLE)),
        How::Late(early) => run(program, "", Input::Late(&TABLE[..early], &TABLE[early..])),
    }
}
