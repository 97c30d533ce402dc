//! The text form of a table, so that a data set can be read and checked by hand. One record stands on a line; a `#`
//! begins a comment.
//!
//!     entry FIRST EXIT FRAME       function FIRST EXIT FRAME
//!     plain OWNER                  sync OWNER
//!     call OWNER TARGET            spawn OWNER TARGET
//!     edge FROM TO
//!
//! For what is no table: `record KIND SORT A B C` with any numbers, and `bytes B B ..` with single bytes.
//! `times N` before any of these repeats it, and a number START+STEP goes up from one time to the next:
//! `times 3 edge 0+1 1+1` stands for the edges 0-1, 1-2, 2-3. Several with ` ; ` between them are repeated in turn:
//! `times 2 edge 0+1 0+1 ; edge 0+1 5` stands for the edges 0-0, 0-5, 1-1, 1-5.

/// The bytes of a table, or the line that isn't one of the above.
pub fn encode(text: &str) -> Result<Vec<u8>, String> {
    let mut bytes = Vec::new();
    for (i, line) in text.lines().enumerate() {
        let words: Vec<&str> = line.split('#').next().unwrap_or("").split_whitespace().collect();
        add_line(&mut bytes, &words).map_err(|what| format!("line {}: {what}", i + 1))?;
    }
    Ok(bytes)
}

fn add_line(bytes: &mut Vec<u8>, words: &[&str]) -> Result<(), String> {
    match words {
        [] => Ok(()),
        ["times", count, rest @ ..] => {
            let mut turns = 0..plain_number(count)?;
            turns.try_for_each(|turn| rest.split(|&word| word == ";").try_for_each(|one| add_record(bytes, one, turn)))
        }
        _ => add_record(bytes, words, 0),
    }
}

/// Adds what the words say in this turn of their repetition; the first turn is 0.
fn add_record(bytes: &mut Vec<u8>, words: &[&str], turn: usize) -> Result<(), String> {
    let (&name, rest) = words.split_first().ok_or("nothing to repeat")?;
    let numbers = rest.iter().map(|word| number(word, turn)).collect::<Result<Vec<usize>, String>>()?;
    let record = match (name, numbers.as_slice()) {
        ("entry", &[first, exit, frame]) => [1, 1, first, exit, frame],
        ("function", &[first, exit, frame]) => [1, 0, first, exit, frame],
        ("plain", &[owner]) => [2, 0, owner, 0, 0],
        ("call", &[owner, target]) => [2, 1, owner, target, 0],
        ("spawn", &[owner, target]) => [2, 2, owner, target, 0],
        ("sync", &[owner]) => [2, 3, owner, 0, 0],
        ("edge", &[from, to]) => [3, 0, from, to, 0],
        ("record", &[kind, sort, a, b, c]) => [kind, sort, a, b, c],
        ("bytes", _) => return numbers.iter().try_for_each(|&n| add_byte(bytes, n)),
        _ => return Err(format!("{}: no such record, or not its numbers", words.join(" "))),
    };
    let [kind, sort, fields @ ..] = record;
    add_byte(bytes, kind)?;
    add_byte(bytes, sort)?;
    fields.iter().try_for_each(|&field| add_field(bytes, field))
}

fn add_byte(bytes: &mut Vec<u8>, n: usize) -> Result<(), String> {
    bytes.push(u8::try_from(n).map_err(|_| format!("{n} is no byte"))?);
    Ok(())
}

fn add_field(bytes: &mut Vec<u8>, n: usize) -> Result<(), String> {
    let field = u16::try_from(n).map_err(|_| format!("{n} is above 65535"))?;
    bytes.extend(field.to_le_bytes());
    Ok(())
}

/// `8+2` is 8, then 10, then 12.
fn number(word: &str, turn: usize) -> Result<usize, String> {
    let (start, step) = word.split_once('+').unwrap_or((word, "0"));
    Ok(plain_number(start)? + turn * plain_number(step)?)
}

fn plain_number(word: &str) -> Result<usize, String> {
    word.parse().map_err(|_| format!("{word} is no number"))
}

#[cfg(test)]
mod tests {
    use super::encode;

    #[test]
    fn records_are_written_as_in_the_document() {
        let each =
            "entry 0 4 40\nfunction 5 6 300\nplain 1\ncall 1 2\nspawn 1 2 # why\n\n# all of it\nsync 1\nedge 3 4";
        let bytes: [[u8; 8]; 7] = [
            [1, 1, 0, 0, 4, 0, 40, 0],
            [1, 0, 5, 0, 6, 0, 44, 1],
            [2, 0, 1, 0, 0, 0, 0, 0],
            [2, 1, 1, 0, 2, 0, 0, 0],
            [2, 2, 1, 0, 2, 0, 0, 0],
            [2, 3, 1, 0, 0, 0, 0, 0],
            [3, 0, 3, 0, 4, 0, 0, 0],
        ];
        assert_eq!(encode(each), Ok(bytes.concat()));
        assert_eq!(encode("record 9 8 1 2 3\nbytes 255 0"), Ok(vec![9, 8, 1, 0, 2, 0, 3, 0, 255, 0]));
    }

    #[test]
    fn a_repetition_is_the_same_as_its_lines() {
        assert_eq!(encode("times 3 edge 0+1 7"), encode("edge 0 7\nedge 1 7\nedge 2 7"));
        assert_eq!(encode("times 2 bytes 4+3 1"), Ok(vec![4, 1, 7, 1]));
        assert_eq!(encode("times 0 plain 0"), Ok(vec![]));
        let two = "edge 0 0\nedge 0 5\nedge 2 1\nedge 1 5";
        assert_eq!(encode("times 2 edge 0+2 0+1 ; edge 0+1 5"), encode(two));
    }

    #[test]
    fn other_lines_are_errors() {
        for line in [
            "plan 0",
            "plain",
            "plain 0 0",
            "edge 0 65536",
            "bytes 256",
            "times 2",
            "times x plain 0",
            "times 1 plain 0 ;",
            "sync -1",
        ] {
            assert!(encode(&format!("plain 0\n{line}")).is_err_and(|what| what.starts_with("line 2: ")), "{line}");
        }
    }
}
