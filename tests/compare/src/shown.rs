//! What the name list and the report of an accepted table show, and how often it has to come up.

use crate::files::Files;
use crate::input::BEHIND;
use crate::lines::*;
use second::frames::name_found;

/// The files in lines, each with its line feed, and what was answered: 0 or a refusal, and its place.
pub struct Shown<'a> {
    functions: usize,
    names: Vec<&'a [u8]>,
    report: Vec<&'a [u8]>,
    /// The names found in the report.
    found: Vec<&'a [u8]>,
    number: u32,
    place: usize,
}

impl<'a> Shown<'a> {
    pub fn new(functions: usize, files: &'a Files, number: u32, place: usize) -> Shown<'a> {
        let [names, report] = [&files.names, &files.report].map(|file| lines(&file[..file.len() - BEHIND]));
        let found = report.iter().map(|line| name_found(text(line))).collect();
        Shown { functions, names, report, found, number, place }
    }

    fn is_listed(&self, name: &[u8]) -> bool {
        self.names.iter().any(|line| text(line) == name)
    }

    /// How many lines of the report a function has.
    fn times(&self, f: usize) -> usize {
        self.found.iter().filter(|&&name| name == text(self.names[f])).count()
    }

    /// Functions that do not have just one line.
    fn wrong_functions(&self) -> usize {
        (0..self.names.len()).filter(|&f| self.times(f) != 1).count()
    }

    fn is_any_doubled(&self) -> bool {
        (1..self.names.len()).any(|f| self.names[..f].contains(&self.names[f]))
    }

    /// Whether the name list is refused for a line that is there, or missing, and not one too many.
    fn is_list_wrong(&self) -> bool {
        self.number == 13 && self.place < self.functions
    }

    /// Whether it is refused for a line that is such.
    fn is_name_wrong(&self, what: fn(&[u8]) -> bool) -> bool {
        self.is_list_wrong() && self.names.get(self.place).is_some_and(|line| what(line))
    }

    fn is_too_many(&self) -> bool {
        self.number == 13 && self.place == self.functions && self.names.len() > self.functions
    }

    /// The line that the report is refused for.
    fn wrong_line(&self) -> Option<&'a [u8]> {
        if self.number != 13 || self.is_list_wrong() || self.is_too_many() {
            return None;
        }
        self.report.get(self.place - self.functions).copied()
    }

    /// Whether the report is refused for a line that has its line feed and is such without it.
    fn is_line_wrong(&self, what: fn(&[u8]) -> bool) -> bool {
        self.wrong_line().is_some_and(|line| is_ended(line) && what(text(line)))
    }

    /// The count and the qualifier of such a line, where it may be one of them that is wrong.
    fn wrong_ends(&self) -> Option<[&'a [u8]; 2]> {
        self.wrong_line().filter(|line| is_ended(line)).and_then(|line| ends(text(line)))
    }

    fn is_count_wrong(&self, what: fn(&[u8]) -> bool) -> bool {
        self.wrong_ends().is_some_and(|[count, qualifier]| qualifier == b"static" && what(count))
    }

    fn is_qualifier_wrong(&self, what: fn(&[u8]) -> bool) -> bool {
        self.wrong_ends()
            .is_some_and(|[count, qualifier]| is_digits(count) && qualifier != b"static" && what(qualifier))
    }

    /// Whether a line of the report from this one on is not of its form.
    fn is_any_wrong(&self, from: usize) -> bool {
        self.found[from..].contains(&&b""[..])
    }

    /// Whether such a line stands behind the one that it is refused for.
    fn has_two_wrong(&self) -> bool {
        self.wrong_line().is_some() && self.is_any_wrong(self.place - self.functions + 1)
    }

    /// Whether a function is refused that has at least and at most so many lines.
    fn has_lines(&self, least: usize, most: usize) -> bool {
        self.number == 14 && (least..=most).contains(&self.times(self.place))
    }

    fn is_name_good(&self, what: fn(&[u8]) -> bool) -> bool {
        self.number == 0 && self.names.iter().any(|line| what(text(line)))
    }

    fn is_line_good(&self, what: fn(&[u8]) -> bool) -> bool {
        self.number == 0 && self.report.iter().any(|line| what(text(line)))
    }

    /// Whether the report is accepted and a function's count is such.
    fn is_count_good(&self, what: fn(&[u8]) -> bool) -> bool {
        let of_function = |line: &&[u8]| self.is_listed(name_found(text(line)));
        self.number == 0 && self.report.iter().filter(|line| of_function(line)).any(|line| what(parts(line)[1]))
    }

    /// Whether the names stand in the report as in the name list.
    fn is_in_order(&self) -> bool {
        self.found.iter().filter(|name| self.is_listed(name)).eq(&self
            .names
            .iter()
            .map(|line| text(line))
            .collect::<Vec<_>>())
    }

    /// Whether a report is accepted, and of a listed name and one of it such is true. Of long ones it is not asked.
    fn are_good(&self, what: fn(&[u8], &[u8]) -> bool) -> bool {
        let with = |other: &[u8]| self.names.iter().any(|line| what(text(line), other));
        self.number == 0 && self.report.len() < 100 && self.found.iter().any(|name| with(name))
    }
}

/// What it is, the least number of inputs in `COUNT` that show it, and whether one does.
type Row = (&'static str, u64, fn(&Shown) -> bool);

pub const SHOWN: [Row; 67] = [
    ("name lists refused for an empty line", 2_000, |s| s.is_name_wrong(|line| line == b"\n")),
    ("name lists refused for a name of 65 bytes", 1_000, |s| {
        s.is_name_wrong(|line| line.len() == 66 && is_ended(line))
    }),
    ("name lists refused for a longer name", 600, |s| s.is_name_wrong(|line| line.len() > 66 && is_ended(line))),
    ("name lists refused for a tab", 1_000, |s| s.is_name_wrong(|line| line.contains(&b'\t') && is_ended(line))),
    ("name lists refused for a colon", 1_000, |s| s.is_name_wrong(|line| line.contains(&b':') && is_ended(line))),
    ("name lists refused for a last piece", 800, |s| s.is_name_wrong(|line| !is_ended(line))),
    ("name lists refused for a line too many", 4_000, |s| s.is_too_many()),
    ("name lists refused for 100 lines too many", 200, |s| s.is_too_many() && s.names.len() >= s.functions + 100),
    ("name lists refused for a last piece too many", 200, |s| s.is_too_many() && !is_ended(s.names[s.place])),
    ("name lists refused for a missing line", 6_000, |s| s.is_list_wrong() && s.place == s.names.len()),
    ("name lists refused for being empty", 3_000, |s| s.is_list_wrong() && s.names.is_empty()),
    ("name lists refused in line 63", 10, |s| s.is_list_wrong() && s.place == 63),
    ("name lists refused before a wrong report", 2_000, |s| s.is_list_wrong() && s.is_any_wrong(0)),
    ("reports refused for an empty line", 1_500, |s| s.is_line_wrong(<[u8]>::is_empty)),
    ("reports refused for no colon", 1_500, |s| s.is_line_wrong(|line| !line.is_empty() && !line.contains(&b':'))),
    ("reports refused for no colon before a tab", 2_000, |s| {
        s.is_line_wrong(|line| line.contains(&b':') && behind_colon(line).is_none())
    }),
    ("reports refused for an empty name", 1_500, |s| s.is_line_wrong(|line| behind_colon(line) == Some(b""))),
    ("reports refused for a name of 65 bytes", 800, |s| {
        s.is_line_wrong(|line| behind_colon(line).map_or(0, <[u8]>::len) == 65)
    }),
    ("reports refused for a longer name", 1_000, |s| {
        s.is_line_wrong(|line| behind_colon(line).map_or(0, <[u8]>::len) > 65)
    }),
    ("reports refused for no tab", 3_000, |s| s.is_line_wrong(|line| parts(line).len() == 1)),
    ("reports refused for one tab", 1_500, |s| s.is_line_wrong(|line| parts(line).len() == 2)),
    ("reports refused for three tabs or more", 3_000, |s| s.is_line_wrong(|line| parts(line).len() > 3)),
    ("reports refused for a count of no digits", 1_000, |s| s.is_count_wrong(<[u8]>::is_empty)),
    ("reports refused for another byte in a count", 1_500, |s| {
        s.is_count_wrong(|count| !count.is_empty() && !is_digits(count))
    }),
    ("reports refused for one behind digits", 400, |s| s.is_count_wrong(|count| is_nearly_digits(count)[0])),
    ("reports refused for one before digits", 300, |s| s.is_count_wrong(|count| is_nearly_digits(count)[1])),
    ("reports refused for a count of 65,536", 600, |s| {
        s.is_count_wrong(|count| is_above(count) && significant(count) == b"65536")
    }),
    ("reports refused for a larger count", 2_000, |s| {
        s.is_count_wrong(|count| is_above(count) && significant(count) != b"65536")
    }),
    ("reports refused for a count of 39 digits or more", 200, |s| {
        s.is_count_wrong(|count| is_above(count) && significant(count).len() >= 39)
    }),
    ("reports refused for a count that wraps in 32 or 64 bits", 600, |s| {
        s.is_count_wrong(|count| is_above(count) && wraps(count))
    }),
    ("reports refused for another qualifier", 2_000, |s| s.is_qualifier_wrong(|_| true)),
    ("reports refused for `dynamic`", 300, |s| s.is_qualifier_wrong(|qualifier| qualifier == b"dynamic")),
    ("reports refused for a carriage return", 600, |s| s.is_qualifier_wrong(|qualifier| qualifier == b"static\r")),
    ("reports refused for less than `static`", 300, |s| {
        s.is_qualifier_wrong(|qualifier| is_longer(b"static", qualifier))
    }),
    ("reports refused for more than `static`", 1_000, |s| {
        s.is_qualifier_wrong(|qualifier| is_longer(qualifier, b"static"))
    }),
    ("reports refused for a last piece", 1_500, |s| s.wrong_line().is_some_and(|line| !is_ended(line))),
    ("reports refused for one of the form of a line", 1_000, |s| {
        s.wrong_line().is_some_and(|line| !is_ended(line) && !name_found(line).is_empty())
    }),
    ("reports refused in the first line", 6_000, |s| s.wrong_line().is_some() && s.place == s.functions),
    ("reports refused behind 100 lines", 100, |s| s.wrong_line().is_some() && s.place >= s.functions + 100),
    ("reports refused behind 65,536 lines", 3, |s| s.wrong_line().is_some() && s.place >= s.functions + 65_536),
    ("reports refused for a name that is not listed", 10_000, |s| {
        s.wrong_line().and_then(behind_colon).is_some_and(|name| !s.is_listed(name))
    }),
    ("reports refused where functions would be, too", 10_000, |s| s.wrong_line().is_some() && s.wrong_functions() > 0),
    ("reports refused for the first of two lines", 2_000, |s| s.has_two_wrong()),
    ("functions refused for no line", 6_000, |s| s.has_lines(0, 0)),
    ("functions refused for two lines", 3_000, |s| s.has_lines(2, 2)),
    ("functions refused for more lines", 1_500, |s| s.has_lines(3, usize::MAX)),
    ("functions refused where another one would be, too", 1_000, |s| s.number == 14 && s.wrong_functions() > 1),
    ("functions refused behind function 0", 4_000, |s| s.number == 14 && s.place > 0),
    ("functions refused behind function 31", 100, |s| s.number == 14 && s.place > 31),
    ("functions refused for an empty report", 800, |s| s.number == 14 && s.report.is_empty()),
    ("functions refused where two have one name", 600, |s| s.number == 14 && s.is_any_doubled()),
    ("accepted files for 64 functions", 800, |s| s.number == 0 && s.functions == 64),
    ("accepted files where two functions have one name", 2_000, |s| s.number == 0 && s.is_any_doubled()),
    ("accepted names of 64 bytes", 15_000, |s| s.is_name_good(|name| name.len() == 64)),
    ("accepted names of one byte", 20_000, |s| s.is_name_good(|name| name.len() == 1)),
    ("accepted names with other bytes than text has", 20_000, |s| {
        s.is_name_good(|name| name.iter().any(|byte| !(b' '..127).contains(byte)))
    }),
    ("accepted reports in another order than the names", 25_000, |s| s.number == 0 && !s.is_in_order()),
    ("accepted reports with a colon alone as place", 25_000, |s| {
        s.is_line_good(|line| line.starts_with(&[b":", name_found(line), b"\t"].concat()))
    }),
    ("accepted reports with a space in a place", 20_000, |s| {
        s.is_line_good(|line| line.starts_with(b"C:\\fan control\\"))
    }),
    ("accepted reports with names that are not listed", 40_000, |s| {
        s.number == 0 && s.found.iter().any(|name| !s.is_listed(name))
    }),
    ("accepted reports with a line of 4,096 bytes", 1_000, |s| s.is_line_good(|line| line.len() >= 4_096)),
    ("accepted reports of 1,000 lines", 150, |s| s.number == 0 && s.report.len() >= 1_000),
    ("accepted reports with a longer name than a listed one", 20_000, |s| {
        s.are_good(|listed, other| is_longer(other, listed))
    }),
    ("accepted reports with a shorter name than a listed one", 15_000, |s| s.are_good(is_longer)),
    ("accepted counts of 65,535", 10_000, |s| s.is_count_good(|count| significant(count) == b"65535")),
    ("accepted counts with a zero before them", 20_000, |s| {
        s.is_count_good(|count| count.len() > 1 && count[0] == b'0')
    }),
    ("accepted counts with 20 digits or more", 15_000, |s| s.is_count_good(|count| count.len() >= 20)),
];

#[cfg(test)]
mod tests {
    use super::*;
    use second::frames::frames;
    use second::random::record;

    /// What files for a table of so many functions show.
    fn shown(functions: usize, names: &str, report: &str) -> Vec<&'static str> {
        let mut table: Vec<[u8; 8]> = (0..functions).map(|f| record(1, 1, f, f, 0)).collect();
        table.extend((0..functions).map(|f| record(2, 0, f, 0, 0)));
        let (number, place) = frames(&table.concat(), names.as_bytes(), report.as_bytes()).err().unwrap_or((0, 0));
        let [names, report] = [names, report].map(|file| [file.as_bytes(), b"\n:f\n"].concat());
        let files = Files { names, report, behind: [0; BEHIND] };
        let of_input = Shown::new(functions, &files, number, place);
        SHOWN.iter().filter(|(_, _, is_shown)| is_shown(&of_input)).map(|(what, ..)| *what).collect()
    }

    /// What a line shows, behind a good one of each of two functions.
    fn of_line(line: &str) -> Vec<&'static str> {
        shown(2, "fan\ntray\n", &format!("a:fan\t1\tstatic\nb:tray\t2\tstatic\n{line}\n"))
    }

    const OTHER_NAME: &str = "reports refused for a name that is not listed";

    #[test]
    fn name_lists() {
        let of_names = |names: &str| shown(2, names, "a:fan\t1\tstatic\nb:tray\t2\tstatic\n");
        assert_eq!(of_names("fan\ntray\n"), [""; 0]);
        assert_eq!(of_names("fan\n\n"), ["name lists refused for an empty line"]);
        assert_eq!(
            of_names(&("fan\n".to_string() + &"n".repeat(65) + "\n")),
            ["name lists refused for a name of 65 bytes"]
        );
        assert_eq!(of_names(&("n".repeat(66) + "\ntray\n")), ["name lists refused for a longer name"]);
        assert_eq!(of_names("fan\t7\ntray\n"), ["name lists refused for a tab"]);
        assert_eq!(of_names("fan\na.c:tray\n"), ["name lists refused for a colon"]);
        assert_eq!(of_names("fan\ntray"), ["name lists refused for a last piece"]);
        assert_eq!(of_names("fan\ntray\n\n"), ["name lists refused for a line too many"]);
        let many = ["name lists refused for a line too many", "name lists refused for 100 lines too many"];
        assert_eq!(of_names(&("fan\n".repeat(101) + "fan\n")), many);
        let one_more = ["name lists refused for a line too many", "name lists refused for a last piece too many"];
        assert_eq!(of_names("fan\ntray\nturn"), one_more);
        assert_eq!(of_names("fan\n"), ["name lists refused for a missing line"]);
        assert_eq!(of_names(""), ["name lists refused for a missing line", "name lists refused for being empty"]);
        let both = ["name lists refused for an empty line", "name lists refused before a wrong report"];
        assert_eq!(shown(1, "\n", "\n"), both);
    }

    #[test]
    fn lines_of_a_report() {
        assert_eq!(of_line(""), ["reports refused for an empty line", "reports refused for no tab"]);
        assert_eq!(of_line("turn\t3\tstatic"), ["reports refused for no colon"]);
        assert_eq!(of_line("turn\t3:\tstatic"), ["reports refused for no colon before a tab"]);
        assert_eq!(of_line("a:\t3\tstatic"), ["reports refused for an empty name", OTHER_NAME]);
        let long = |length| format!("a:{}\t3\tstatic", "n".repeat(length));
        assert_eq!(of_line(&long(65)), ["reports refused for a name of 65 bytes", OTHER_NAME]);
        assert_eq!(of_line(&long(66)), ["reports refused for a longer name", OTHER_NAME]);
        assert_eq!(of_line("a:fan 3 static"), ["reports refused for no tab", OTHER_NAME]);
        assert_eq!(of_line("a:fan\t3 static"), ["reports refused for one tab"]);
        assert_eq!(of_line("a:fan\t3\t\tstatic"), ["reports refused for three tabs or more"]);
    }

    #[test]
    fn counts_and_qualifiers() {
        let count = |count: &str| of_line(&format!("a:fan\t{count}\tstatic"));
        assert_eq!(count(""), ["reports refused for a count of no digits"]);
        let other_byte = "reports refused for another byte in a count";
        assert_eq!(count("3x4"), [other_byte]);
        assert_eq!(count("34 "), [other_byte, "reports refused for one behind digits"]);
        assert_eq!(count("+34"), [other_byte, "reports refused for one before digits"]);
        let too = "reports refused where functions would be, too";
        assert_eq!(count("065536"), ["reports refused for a count of 65,536", too]);
        let wraps = "reports refused for a count that wraps in 32 or 64 bits";
        assert_eq!(count("4294967299"), ["reports refused for a larger count", wraps, too]);
        let many = "reports refused for a count of 39 digits or more";
        assert_eq!(count(&"9".repeat(39)), ["reports refused for a larger count", many, too]);
        let qualifier = |qualifier: &str| of_line(&format!("a:fan\t3\t{qualifier}"));
        let other = "reports refused for another qualifier";
        assert_eq!(qualifier("dynamic"), [other, "reports refused for `dynamic`"]);
        let more = "reports refused for more than `static`";
        assert_eq!(qualifier("static\r"), [other, "reports refused for a carriage return", more]);
        assert_eq!(qualifier("stat"), [other, "reports refused for less than `static`"]);
    }

    #[test]
    fn where_reports_are_refused() {
        let piece = "reports refused for a last piece";
        let first = "reports refused in the first line";
        let too = "reports refused where functions would be, too";
        assert_eq!(shown(1, "fan\n", "fan"), [piece, first, too]);
        let formed = "reports refused for one of the form of a line";
        assert_eq!(shown(1, "fan\n", "a:fan\t3\tstatic"), [piece, formed, first]);
        let two = ["reports refused for an empty line", "reports refused for no tab", first, too];
        assert_eq!(shown(1, "fan\n", "\n\n"), [&two[..], &["reports refused for the first of two lines"]].concat());
        let hundred = shown(1, "fan\n", &("a:fan\t3\tstatic\n".to_string() + &"b:x\t3\tstatic\n".repeat(99) + "\n"));
        assert_eq!(hundred, [two[0], two[1], "reports refused behind 100 lines"]);
        let more = shown(1, "fan\n", &(":fan\t3\tstatic\n".to_string() + &":x\t3\tstatic\n".repeat(65_535) + "\n"));
        assert_eq!(more[2..], ["reports refused behind 100 lines", "reports refused behind 65,536 lines"]);
    }

    #[test]
    fn functions_are_refused() {
        let line = "a:fan\t3\tstatic\n";
        let of_lines = |times| shown(1, "fan\n", &("b:x\t3\tstatic\n".to_string() + &line.repeat(times)));
        assert_eq!(of_lines(0), ["functions refused for no line"]);
        assert_eq!(of_lines(2), ["functions refused for two lines"]);
        assert_eq!(of_lines(3), ["functions refused for more lines"]);
        let empty = "functions refused for an empty report";
        assert_eq!(shown(1, "fan\n", ""), ["functions refused for no line", empty]);
        let another = "functions refused where another one would be, too";
        let one_name = "functions refused where two have one name";
        let three = shown(3, "fan\ntray\ntray\n", line);
        assert_eq!(three, ["functions refused for no line", another, "functions refused behind function 0", one_name]);
    }

    #[test]
    fn files_are_accepted() {
        let with = |line: &str| of_line(line);
        assert_eq!(with("c:turn\t3\tstatic"), ["accepted reports with names that are not listed"]);
        let others =
            ["accepted reports with a colon alone as place", "accepted reports with names that are not listed"];
        assert_eq!(with(":turn\t3\tstatic"), others);
        let longer = [
            "accepted reports with names that are not listed",
            "accepted reports with a longer name than a listed one",
        ];
        assert_eq!(with("c:fans\t3\tstatic"), longer);
        let shorter = [
            "accepted reports with names that are not listed",
            "accepted reports with a shorter name than a listed one",
        ];
        assert_eq!(with("c:fa\t3\tstatic"), shorter);
        assert_eq!(shown(2, "fan\nfan\n", "a:fan\t3\tstatic\n")[0], "accepted files where two functions have one name");
        let turned = shown(2, "fan\ntray\n", "a:tray\t3\tstatic\na:fan\t0065535\tstatic\n");
        assert_eq!(turned[0], "accepted reports in another order than the names");
        assert_eq!(turned[1..], ["accepted counts of 65,535", "accepted counts with a zero before them"]);
        assert_eq!(shown(1, "\r\n", "a:\r\t3\tstatic\n")[1], "accepted names with other bytes than text has");
    }
}
