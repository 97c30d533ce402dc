//! A long report, with the names of a table's functions.

use second::random::Random;
use std::collections::HashSet;

/// How many lines there are, and how many of them are of listed names.
pub const LINES: usize = 1_000_000;
pub const LISTED: usize = 64;

pub struct Files {
    pub names: Vec<u8>,
    pub report: Vec<u8>,
}

const FOLDERS: [&str; 8] = ["fan", "tray", "turn", "humidity", "motion", "log", "board", "sensors"];
const FILES: [&str; 8] = ["control", "driver", "task", "planner", "table", "filter", "queue", "clock"];
const VERBS: [&str; 8] = ["start", "stop", "read", "write_back", "update", "handle_event", "init", "check_limits"];

fn one(random: &mut Random, of: &[&'static str]) -> &'static str {
    of[random.below(of.len())]
}

/// A name of 8 to 30 bytes.
fn name(random: &mut Random) -> String {
    loop {
        let (folder, verb) = (one(random, &FOLDERS), one(random, &VERBS));
        let name = match random.below(3) {
            0 => format!("{folder}_{verb}"),
            1 => format!("{folder}_{}_{verb}_{}", one(random, &FILES), random.below(1_000)),
            _ => format!("{folder}_{verb}_{}", random.below(10_000)),
        };
        if (8..=30).contains(&name.len()) {
            return name;
        }
    }
}

fn line(random: &mut Random, name: &str) -> String {
    let (folder, file) = (one(random, &FOLDERS), one(random, &FILES));
    let (row, column) = (1 + random.below(3_000), 1 + random.below(40));
    format!("src/{folder}/{file}.c:{row}:{column}:{name}\t{}\tstatic\n", 16 * random.below(300))
}

/// Names, and a report in which each has its line somewhere among those of others. All of it is the same in each run.
pub fn files() -> Files {
    let mut random = Random::new(7);
    let mut names: Vec<String> = Vec::new();
    while names.len() < LISTED {
        let name = name(&mut random);
        if !names.contains(&name) {
            names.push(name);
        }
    }
    let listed: HashSet<&str> = names.iter().map(|name| &name[..]).collect();
    let mut lines: Vec<String> = names.iter().map(|name| line(&mut random, name)).collect();
    while lines.len() < LINES {
        let name = name(&mut random);
        if !listed.contains(&name[..]) {
            lines.push(line(&mut random, &name));
        }
    }
    random.shuffle(&mut lines);
    let names = names.iter().map(|name| format!("{name}\n")).collect::<String>();
    Files { names: names.into_bytes(), report: lines.concat().into_bytes() }
}
