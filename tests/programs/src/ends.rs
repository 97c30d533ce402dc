//! How a program that writes a table has to end.

use std::process::Output;

fn is(output: &Output, printed: &[u8], said: &str, status: i32) -> Result<(), String> {
    if output.stdout == printed && output.stderr == said.as_bytes() && output.status.code() == Some(status) {
        return Ok(());
    }
    Err(format!("wanted were {} bytes, {said:?} on standard error and status {status}: {output:?}", printed.len()))
}

/// It prints the table, and says nothing.
pub fn gives(output: &Output, table: &[u8]) -> Result<(), String> {
    is(output, table, "", 0)
}

/// It prints nothing, and says just this.
pub fn says(output: &Output, text: &str) -> Result<(), String> {
    is(output, b"", text, 1)
}

/// It prints nothing, and says what the refusal is.
pub fn refuses(output: &Output, number: u32, place: usize) -> Result<(), String> {
    says(output, &format!("refused {number} at {place}\n"))
}

/// It prints nothing, and says in one line what is wrong, which is no refusal.
pub fn fails(output: &Output) -> Result<(), String> {
    let text = String::from_utf8_lossy(&output.stderr);
    let is_line = text.lines().count() == 1 && text.ends_with('\n') && !text.trim().is_empty();
    if !is_line || text.contains("panic") || text.starts_with("refused") {
        return Err(format!("no line that says what is wrong: {text:?}"));
    }
    says(output, &text)
}

#[cfg(test)]
mod tests {
    use super::*;
    use crate::failures::run;
    use crate::input::Input;

    fn end(script: &str) -> Output {
        run(&["sh", "-c", script], "", Input::Whole(&[])).expect("sh")
    }

    #[test]
    fn tables() {
        assert_eq!(gives(&end("printf table"), b"table"), Ok(()));
        for script in ["printf tables", "true", "printf table; exit 1", "printf table; echo >&2", "printf table >&2"] {
            assert!(gives(&end(script), b"table").is_err(), "{script}");
        }
    }

    #[test]
    fn refusals() {
        assert_eq!(refuses(&end("echo refused 13 at 4 >&2; exit 1"), 13, 4), Ok(()));
        for script in [
            "echo refused 13 at 4 >&2",
            "echo refused 13 at 4 >&2; exit 2",
            "echo refused 13 at 4; exit 1",
            "echo; echo refused 13 at 4 >&2; exit 1",
            "echo refused 13 at 5 >&2; exit 1",
            "echo refused 14 at 4 >&2; exit 1",
            "echo Error: refused 13 at 4 >&2; exit 1",
            "printf 'refused 13 at 4' >&2; exit 1",
            "printf 'refused 13 at 4\\n\\n' >&2; exit 1",
        ] {
            assert!(refuses(&end(script), 13, 4).is_err(), "{script}");
        }
    }

    #[test]
    fn failures() {
        assert_eq!(fails(&end("echo 'Reading: Is a directory' >&2; exit 1")), Ok(()));
        for script in [
            "exit 1",
            "echo >&2; exit 1",
            "echo 'Reading: Is a directory' >&2",
            "echo 'Reading: Is a directory' >&2; exit 101",
            "echo 'Reading: Is a directory' >&2; kill -s KILL $$",
            "echo 'Reading: Is a directory' >&2; echo more >&2; exit 1",
            "echo table; echo 'Reading: Is a directory' >&2; exit 1",
            "printf 'Reading: Is a directory' >&2; exit 1",
            "echo refused 13 at 4 >&2; exit 1",
            "echo \"thread 'main' panicked at main.rt\" >&2; exit 1",
        ] {
            assert!(fails(&end(script)).is_err(), "{script}");
        }
    }
}
