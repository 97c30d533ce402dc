//! The lines of files, and what stands in one of a report, whether or not it is of its form.

/// Each line with its line feed.
pub fn lines(file: &[u8]) -> Vec<&[u8]> {
    file.split_inclusive(|&byte| byte == b'\n').collect()
}

pub fn is_ended(line: &[u8]) -> bool {
    line.ends_with(b"\n")
}

pub fn text(line: &[u8]) -> &[u8] {
    line.strip_suffix(b"\n").unwrap_or(line)
}

/// What stands before, between and behind the tabs.
pub fn parts(line: &[u8]) -> Vec<&[u8]> {
    line.split(|&byte| byte == b'\t').collect()
}

/// What stands behind the last colon before the first tab, if there is one.
pub fn behind_colon(line: &[u8]) -> Option<&[u8]> {
    let start = parts(line)[0];
    start.iter().rposition(|&byte| byte == b':').map(|colon| &start[colon + 1..])
}

/// The count and the qualifier of a line that has three parts and a name.
pub fn ends(line: &[u8]) -> Option<[&[u8]; 2]> {
    match parts(line)[..] {
        [_, count, qualifier] if (1..=64).contains(&behind_colon(line)?.len()) => Some([count, qualifier]),
        _ => None,
    }
}

pub fn is_digits(bytes: &[u8]) -> bool {
    !bytes.is_empty() && bytes.iter().all(u8::is_ascii_digit)
}

/// Whether it would be digits without its last byte, or without its first one.
pub fn is_nearly_digits(bytes: &[u8]) -> [bool; 2] {
    let is_spoiled = |(byte, more): (&u8, &[u8])| is_digits(more) && !byte.is_ascii_digit();
    [bytes.split_last().is_some_and(is_spoiled), bytes.split_first().is_some_and(is_spoiled)]
}

/// A number without the zeros before it.
pub fn significant(digits: &[u8]) -> &[u8] {
    &digits[digits.iter().take_while(|&&digit| digit == b'0').count()..]
}

pub fn is_above(digits: &[u8]) -> bool {
    is_digits(digits)
        && (significant(digits).len() > 5 || significant(digits).len() == 5 && significant(digits) > b"65535")
}

/// Whether of a number of more than 32 or 64 bits one up to 65,535 is left in these.
pub fn wraps(digits: &[u8]) -> bool {
    let number: Option<u128> = std::str::from_utf8(digits).ok().and_then(|text| text.parse().ok());
    number.is_some_and(|number| [32, 64].iter().any(|bits| number >> bits > 0 && number % (1 << bits) <= 65_535))
}

/// Whether one is the other and more.
pub fn is_longer(one: &[u8], other: &[u8]) -> bool {
    one.len() > other.len() && one.starts_with(other)
}

#[cfg(test)]
mod tests {
    use super::*;

    #[test]
    fn files_have_lines() {
        assert_eq!(lines(b""), [b""; 0]);
        assert_eq!(lines(b"a\n\nb\n"), [&b"a\n"[..], b"\n", b"b\n"]);
        assert_eq!(lines(b"a\nb"), [&b"a\n"[..], b"b"]);
        assert!(is_ended(b"a\n") && !is_ended(b"a") && text(b"a\n") == b"a" && text(b"a") == b"a");
    }

    #[test]
    fn lines_have_parts() {
        assert_eq!(parts(b"a:b\t7\tstatic"), [&b"a:b"[..], b"7", b"static"]);
        assert_eq!((parts(b"").len(), parts(b"\t").len()), (1, 2));
        assert_eq!(behind_colon(b"a:b:c d\t:7"), Some(&b"c d"[..]));
        assert_eq!((behind_colon(b":"), behind_colon(b"a\t:"), behind_colon(b"")), (Some(&b""[..]), None, None));
        assert_eq!(ends(b":f\t\tx"), Some([&b""[..], b"x"]));
        for line in [&b":f\t7"[..], b":\t7\tx", b":f\t7\tx\t", b"f\t7\tx"] {
            assert_eq!(ends(line), None);
        }
    }

    #[test]
    fn numbers() {
        assert!(is_digits(b"007") && !is_digits(b"") && !is_digits(b"7 "));
        assert_eq!(is_nearly_digits(b"7 "), [true, false]);
        assert_eq!(is_nearly_digits(b"+7"), [false, true]);
        assert_eq!((is_nearly_digits(b"77"), is_nearly_digits(b" ")), ([false; 2], [false; 2]));
        assert_eq!((significant(b"00700"), significant(b"00")), (&b"700"[..], &b""[..]));
        assert!(is_above(b"65536") && is_above(b"000100000") && !is_above(b"0065535") && !is_above(b"99999 "));
        assert!(wraps(b"4294967303") && wraps(b"18446744073709551616") && !wraps(b"65536") && !wraps(b"4295032832"));
    }
}
