//! "Frames from the compiler's report": lines, name lists and reports worked out by hand.

mod common;

use common::*;
use second::frames::{frames, name_found};
use second::table::Refusal;

/// A table of so many functions with frame 258, each of one plain node.
fn of_functions(functions: usize) -> Vec<u8> {
    let mut records: Vec<[usize; 5]> = (0..functions).map(|f| [1, (f == 0) as usize, f, f, 258]).collect();
    records.extend((0..functions).map(|f| [2, 0, f, 0, 0]));
    table(&records)
}

/// The frames that a table has after the call; nothing else of it differs.
fn frames_after(table: &[u8], names: &[u8], report: &[u8]) -> Result<Vec<u16>, Refusal> {
    let new = frames(table, names, report)?;
    assert_eq!(new.len(), table.len());
    let functions = table.chunks(8).filter(|record| record[0] == 1).count();
    let is_frame = |at: usize| at < 8 * functions && at % 8 >= 6;
    assert!((0..new.len()).all(|at| is_frame(at) || new[at] == table[at]));
    Ok(new.chunks(8).take(functions).map(|record| u16::from_le_bytes([record[6], record[7]])).collect())
}

fn of_texts(functions: usize, names: &str, report: &str) -> Result<Vec<u16>, Refusal> {
    frames_after(&of_functions(functions), names.as_bytes(), report.as_bytes())
}

/// What a line gives the only function, named f. A line not of its form is line 1, behind the name list's.
fn of_line(line: &str) -> Result<u16, Refusal> {
    of_texts(1, "f\n", &format!("{line}\n")).map(|frames| frames[0])
}

const WRONG_LINE: Result<u16, Refusal> = Err((13, 1));
const NO_LINE: Result<u16, Refusal> = Err((14, 0));

/// The name found in a line, and what it gives the function f.
fn found(line: &str) -> (&str, Result<u16, Refusal>) {
    (std::str::from_utf8(name_found(line.as_bytes())).unwrap(), of_line(line))
}

/// As GCC writes it: "a place that ends in a colon and the function's name, a tab, a byte count in decimal, a tab, and a
/// qualifier".
#[test]
fn a_line_of_a_compiler() {
    assert_eq!(found("control.c:14:6:f\t48\tstatic"), ("f", Ok(48)));
    assert_eq!(found("control.c:14:6:fan_start\t48\tstatic"), ("fan_start", NO_LINE));
}

/// "A place holds no tab and may be the colon alone."
#[test]
fn places() {
    for place in [":", "::", ":::::", " :", "a b : c:", "C:\\fan control\\control.c:14:6:", "\r:", "\0:", "é:", "14:"]
    {
        assert_eq!(found(&format!("{place}f\t7\tstatic")), ("f", Ok(7)), "{place:?}");
    }
    // Not those behind the colon: what is not of the place is of the name.
    assert_eq!(found(":f:g\t7\tstatic"), ("g", NO_LINE));
    assert_eq!(found(": f\t7\tstatic"), (" f", NO_LINE));
    // No place, and so no colon; none before the tab; a tab in the place
    for line in
        ["f\t7\tstatic", "f\t7:\tstatic", "f\t7\tstatic:", "f\t:7\tstatic", "a\tb:f\t7\tstatic", "\t:f\t7\tstatic"]
    {
        assert_eq!(found(line), ("", WRONG_LINE), "{line:?}");
    }
    // Any byte but tab and line feed may stand there.
    let all: Vec<u8> = (0..=255).filter(|byte| !b"\t\n".contains(byte)).collect();
    let line = [&all, &b":f\t9\tstatic\n"[..]].concat();
    assert_eq!(frames_after(&of_functions(1), b"f\n", &line), Ok(vec![9]));
}

/// "a name is 1 to 64 bytes without tab, colon or line feed"
#[test]
fn names() {
    for length in [1, 2, 63, 64] {
        let name = "n".repeat(length);
        let line = format!("a.c:1:2:{name}\t3\tstatic");
        assert_eq!(name_found(line.as_bytes()), name.as_bytes());
        assert_eq!(of_texts(1, &format!("{name}\n"), &format!("{line}\n")), Ok(vec![3]));
    }
    for length in [65, 66, 128, 320] {
        let name = "n".repeat(length);
        assert_eq!(found(&format!(":{name}\t3\tstatic")), ("", WRONG_LINE));
        assert_eq!(of_texts(1, &format!("{name}\n"), ":f\t3\tstatic\n"), Err((13, 0)));
    }
    assert_eq!(found(":\t3\tstatic"), ("", WRONG_LINE));
    assert_eq!(found("a.c:1:2:\t3\tstatic"), ("", WRONG_LINE));
    // A name may be of any other bytes, and of a carriage return too.
    for name in [" ", "\r", "\0", "static", "0", "f\r", "é", "operator()(int) const"] {
        assert_eq!(found(&format!(":{name}\t3\tstatic")), (name, NO_LINE));
        assert_eq!(of_texts(1, &format!("{name}\n"), &format!(":{name}\t3\tstatic\n")), Ok(vec![3]), "{name:?}");
    }
    // In the name list a line is "a name and nothing else".
    for name in ["", "f:", ":f", "a.c:1:2:f", "f\t", "\tf", "f\t3", ":", "\t"] {
        assert_eq!(of_texts(1, &format!("{name}\n"), ":f\t3\tstatic\n"), Err((13, 0)), "{name:?}");
    }
}

/// "Names match byte for byte."
#[test]
fn other_names() {
    for name in ["F", "f ", " f", "f\r", "ff", "g", "f\0"] {
        assert_eq!(found(&format!("f:{name}\t3\tstatic")), (name, NO_LINE), "{name:?}");
    }
    let name = |last: &str| "n".repeat(63) + last;
    let line = format!(":{}\t3\tstatic\n", name("a"));
    assert_eq!(of_texts(1, &(name("a") + "\n"), &line), Ok(vec![3]));
    assert_eq!(of_texts(1, &(name("b") + "\n"), &line), Err((14, 0)));
    assert_eq!(of_texts(1, &(name("") + "\n"), &line), Err((14, 0)));
    let high = |byte: u8| [b'f', byte, b'\n'];
    let line = [b':', b'f', 0xE9, b'\t', b'3', b'\t', b's', b't', b'a', b't', b'i', b'c', b'\n'];
    assert_eq!(frames_after(&of_functions(1), &high(0xE9), &line), Ok(vec![3]));
    assert_eq!(frames_after(&of_functions(1), &high(0x69), &line), Err((14, 0)));
}

/// "A count is one or more digits, leading zeros allowed."
#[test]
fn counts() {
    let count = |digits: &str| of_line(&format!("a.c:1:2:f\t{digits}\tstatic"));
    for (digits, frame) in
        [("0", 0), ("7", 7), ("00", 0), ("007", 7), ("256", 256), ("65535", 65_535), ("0065535", 65_535)]
    {
        assert_eq!(count(digits), Ok(frame), "{digits}");
    }
    assert_eq!(count(&"0".repeat(100)), Ok(0));
    assert_eq!(count(&("0".repeat(95) + "65535")), Ok(65_535));
    for digits in ["", " ", " 7", "7 ", "+7", "-7", "-0", "0x7", "7.0", "7,", "1e2", "seven", "٧", "7\r", "7\0"] {
        assert_eq!(count(digits), WRONG_LINE, "{digits:?}");
    }
    // Above 65,535, and those of which less is left in 16, 32, 64 or 128 bits
    for digits in ["65536", "065536", "65543", "99999", "655350", "4294967303", "18446744073709551623"] {
        assert_eq!(count(digits), WRONG_LINE, "{digits}");
    }
    for digits in
        ["340282366920938463463374607431768211463".to_string(), "1".repeat(100), "1".to_string() + &"0".repeat(99)]
    {
        assert_eq!(count(&digits), WRONG_LINE, "{digits}");
    }
    // Such a line is of its form, and has its name.
    assert_eq!(name_found(b"a.c:1:2:f\t65536\tstatic"), b"f");
    assert_eq!(name_found(&[b":f\t", &[b'9'; 100][..], b"\tstatic"].concat()), b"f");
}

/// "The qualifier must be `static`."
#[test]
fn qualifiers() {
    for qualifier in [
        "dynamic",
        "dynamic,bounded",
        "bounded",
        "",
        "s",
        "stati",
        "Static",
        "STATIC",
        "static ",
        " static",
        "static\r",
        "statics",
        "static,bounded",
        "static\t",
        "\tstatic",
        "static\tstatic",
        "static\0",
    ] {
        assert_eq!(found(&format!("a.c:1:2:f\t7\t{qualifier}")), ("", WRONG_LINE), "{qualifier:?}");
    }
}

/// Lines with fewer parts, or more.
#[test]
fn parts() {
    for line in [
        "",
        " ",
        "\r",
        ":",
        "\t",
        "\t\t",
        ":f",
        ":f\t7",
        ":f\tstatic",
        ":f\t\tstatic",
        ":f\t7static",
        ":f 7 static",
        ":f\t7\t\tstatic",
        ":f\t\t7\tstatic",
        "::f\t7\tstatic\t7",
        "a.c:1:2:f\t7\tstatic:f\t7\tstatic",
    ] {
        assert_eq!(found(line), ("", WRONG_LINE), "{line:?}");
    }
}

/// "Read it with a name list, one line per function in number order." "Report names that aren't listed are passed over."
#[test]
fn functions_of_a_table() {
    let report = "fan.c:3:6:fan\t48\tstatic\nmain.c:9:5:main\t0300\tstatic\n:spare\t65535\tstatic\n:tray\t0\tstatic\n";
    assert_eq!(of_texts(3, "main\nfan\ntray\n", report), Ok(vec![300, 48, 0]));
    assert_eq!(of_texts(3, "tray\nspare\nmain\n", report), Ok(vec![0, 65_535, 300]));
    assert_eq!(of_texts(1, "fan\n", report), Ok(vec![48]));
    // Passed over, however often they stand there
    assert_eq!(of_texts(1, "fan\n", &report.replace("main", "spare")), Ok(vec![48]));
    // Case A, of which nothing else may change, and one of full length
    let new = frames(&case_a(), b"main\nfan\ntray\n", report.as_bytes()).unwrap();
    let mut expected = case_a();
    expected[6..8].copy_from_slice(&[44, 1]);
    expected[14..16].copy_from_slice(&[48, 0]);
    expected[22..24].copy_from_slice(&[0, 0]);
    assert_eq!(new, expected);
    let (names, lines): (String, String) =
        (0..64).map(|f| (format!("f{f}\n"), format!("x.c:{f}:f{}\t{}\tstatic\n", 63 - f, 1000 * (63 - f)))).unzip();
    assert_eq!(of_texts(64, &names, &lines), Ok((0..64).map(|f| 1000 * f).collect()));
}

/// Two functions of one name have one line for both, and are refused for two lines.
#[test]
fn the_same_name_twice() {
    assert_eq!(of_texts(3, "f\ng\nf\n", ":f\t5\tstatic\n:g\t6\tstatic\n"), Ok(vec![5, 6, 5]));
    assert_eq!(of_texts(3, "g\nf\nf\n", ":f\t5\tstatic\n:g\t6\tstatic\n:f\t5\tstatic\n"), Err((14, 1)));
    assert_eq!(of_texts(3, "f\nf\nf\n", ""), Err((14, 0)));
}

/// 14: "a function with no report line or more than one", place "the function".
#[test]
fn lines_of_functions() {
    let line = |name: &str| format!("a.c:1:2:{name}\t5\tstatic\n");
    assert_eq!(of_texts(1, "f\n", ""), Err((14, 0)));
    assert_eq!(of_texts(2, "f\ng\n", &line("f")), Err((14, 1)));
    assert_eq!(of_texts(2, "f\ng\n", &line("g")), Err((14, 0)));
    assert_eq!(of_texts(2, "f\ng\n", &(line("f") + &line("g") + &line("g"))), Err((14, 1)));
    assert_eq!(of_texts(2, "f\ng\n", &(line("g") + &line("g"))), Err((14, 0)));
    // The lowest-numbered one, whichever stands first in the report, and whether it has no line or two
    assert_eq!(
        of_texts(3, "f\ng\nh\n", &(line("h") + &line("h") + &line("g") + &line("g") + &line("f"))),
        Err((14, 1))
    );
    // Two lines that say the same are two.
    assert_eq!(of_texts(1, "f\n", &line("f").repeat(2)), Err((14, 0)));
    assert_eq!(of_texts(1, "f\n", ":f\t5\tstatic\nb.c:1:f\t7\tstatic\n"), Err((14, 0)));
}

/// 13: "a name list with a line too many or too few", place "the first such or missing line".
#[test]
fn lines_of_the_name_list() {
    let report = ":f\t1\tstatic\n:g\t2\tstatic\n:h\t3\tstatic\n";
    for (names, place) in [
        ("", 0),
        ("f\n", 1),
        ("f\ng\nh\n", 2),
        ("f\ng\n\n", 2),
        ("f\ng\nh\nf\n", 2),
        ("\n\n\n\n", 0),
        ("f\n\n", 1),
        ("\ng\n", 0),
        // What is left behind the last line feed is a line, and not of its form.
        ("f\ng", 1),
        ("f\ng\nh", 2),
        ("f", 0),
        ("f\ng\n\0", 2),
    ] {
        assert_eq!(of_texts(2, names, report), Err((13, place)), "{names:?}");
    }
    assert_eq!(of_texts(2, "f\ng\n", report), Ok(vec![1, 2]));
}

/// The place of a line of the report counts the name list's lines before it.
#[test]
fn lines_of_the_report() {
    let good = ":f\t1\tstatic\n:g\t2\tstatic\n";
    for (more, place) in [
        ("\n", 4),
        (":h\t3\tdynamic\n", 4),
        (":h\t65536\tstatic\n", 4),
        (":h\t3\tstatic\n\n", 5),
        // Without a line feed, whatever else it is
        (":h\t3\tstatic", 4),
        (":", 4),
        (":h\t3\tstatic\n:i\t3\tstatic", 5),
        ("\0", 4),
        // Two: the first one
        ("\n:h\t65536\tstatic\n", 4),
        (":h\t65536\tstatic\n\n", 4),
    ] {
        assert_eq!(of_texts(2, "f\ng\n", &(good.to_string() + more)), Err((13, place)), "{more:?}");
    }
    assert_eq!(of_texts(2, "f\ng\n", &("\n".to_string() + good)), Err((13, 2)));
    assert_eq!(of_texts(2, "f\ng\n", "f\ng\n"), Err((13, 2)));
}

/// The table's own come first, then 13, whatever 14 would say, and in 13 the name list.
#[test]
fn the_lowest_number_first() {
    for (names, report) in [("f\n", ":f\t1\tstatic\n"), ("", ""), ("\n\n\n", "\n")] {
        assert_eq!(frames(&[], names.as_bytes(), report.as_bytes()), Err((5, 0)));
        assert_eq!(frames(&[0; 7], names.as_bytes(), report.as_bytes()), Err((1, 0)));
    }
    assert_eq!(of_texts(2, "f\ng\n", ":f\t1\tstatic\n:h\t1\tdynamic\n"), Err((13, 3)));
    assert_eq!(of_texts(2, "f\ng\n", ":f\t1\tstatic\n:f\t1\tstatic\n\n"), Err((13, 4)));
    assert_eq!(of_texts(2, "f\n", "\n"), Err((13, 1)));
    assert_eq!(of_texts(2, "f\ng\nh\n", "\n"), Err((13, 2)));
}
