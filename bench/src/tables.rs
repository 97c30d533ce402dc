//! The tables that are measured.

use second::random::{record, Random};
use std::collections::BTreeSet;

const PLAIN: u8 = 0;
const CALL: u8 = 1;
const SPAWN: u8 = 2;
const SYNC: u8 = 3;

pub struct Table {
    pub name: &'static str,
    pub bytes: Vec<u8>,
}

#[derive(Default)]
struct Records {
    functions: Vec<[u8; 8]>,
    nodes: Vec<[u8; 8]>,
    // In ascending order, each once.
    edges: BTreeSet<(usize, usize)>,
}

impl Records {
    // A function of nodes in a line, each given by its sort and target.
    fn function(&mut self, frame: usize, line: &[(u8, usize)]) {
        let entry = self.functions.is_empty() as u8;
        let (owner, first) = (self.functions.len(), self.nodes.len());
        self.functions.push(record(1, entry, first, first + line.len() - 1, frame));
        for (i, &(sort, target)) in line.iter().enumerate() {
            self.nodes.push(record(2, sort, owner, target, 0));
            if i > 0 {
                self.edge(first + i - 1, first + i);
            }
        }
    }

    fn edge(&mut self, from: usize, to: usize) {
        self.edges.insert((from, to));
    }

    fn table(self, name: &'static str) -> Table {
        let edges = self.edges.into_iter().map(|(from, to)| record(3, 0, from, to, 0)).collect();
        Table { name, bytes: [self.functions, self.nodes, edges].concat().concat() }
    }
}

// Case A of document 01.
pub fn case_a() -> Table {
    let mut records = Records::default();
    records.function(40, &[(PLAIN, 0), (SPAWN, 1), (SYNC, 0), (SPAWN, 2), (PLAIN, 0)]);
    records.function(24, &[(PLAIN, 0)]);
    records.function(100, &[(PLAIN, 0)]);
    records.table("A")
}

fn instruction(random: &mut Random, function: usize, recursion: bool) -> (u8, usize) {
    let later = 63 - function;
    let target = if recursion { random.below(64) } else { function + 1 + random.below(later.max(1)) };
    match random.below(100) {
        0..=19 if recursion || later > 0 => (CALL, target),
        20..=43 if recursion || later > 0 => (SPAWN, target),
        44..=53 => (SYNC, 0),
        _ => (PLAIN, 0),
    }
}

// 64 functions of eight nodes, 1,024 edges, frames of 16 to 256 bytes. Without recursion a function calls and spawns later ones only,
// and edges lead on.
pub fn full_size(name: &'static str, recursion: bool) -> Table {
    let mut random = Random::new(7);
    let mut records = Records::default();
    for function in 0..64 {
        let mut line = [(PLAIN, 0); 8];
        line[1..7].fill_with(|| instruction(&mut random, function, recursion));
        records.function(16 + random.below(241), &line);
    }
    while records.edges.len() < 1024 {
        let (function, from, to) = (random.below(64), random.below(8), random.below(8));
        if recursion || from < to {
            records.edge(8 * function + from, 8 * function + to);
        }
    }
    records.table(name)
}

// Two functions that call each other, each with a spawn of a leaf.
fn mutual() -> Table {
    let mut records = Records::default();
    records.function(16, &[(PLAIN, 0), (CALL, 1), (SPAWN, 2), (PLAIN, 0)]);
    records.function(16, &[(PLAIN, 0), (CALL, 0), (SPAWN, 2), (PLAIN, 0)]);
    records.function(10, &[(PLAIN, 0)]);
    records.table("mutual recursion")
}

enum Order {
    Ascending,
    Descending,
    Random,
}

// One function of 510 nodes in a line, numbered in this order, with a spawn of a leaf at every fiftieth.
fn line(name: &'static str, order: Order) -> Table {
    let mut numbers: Vec<usize> = (0..510).collect();
    match order {
        Order::Ascending => {}
        Order::Descending => numbers.reverse(),
        Order::Random => Random::new(7).shuffle(&mut numbers),
    }
    let mut records = Records::default();
    records.functions.push(record(1, 1, numbers[0], numbers[509], 40));
    records.nodes = vec![record(2, PLAIN, 0, 0, 0); 510];
    for place in (7..510).step_by(50) {
        records.nodes[numbers[place]] = record(2, SPAWN, 0, 1, 0);
    }
    numbers.windows(2).for_each(|pair| records.edge(pair[0], pair[1]));
    records.function(24, &[(PLAIN, 0)]);
    records.table(name)
}

// The table with its edges in the order that this gives them.
fn with_edges(table: Table, name: &'static str, order: impl FnOnce(&mut [[u8; 8]])) -> Table {
    let records = table.bytes.chunks_exact(8).map(|record| record.try_into().expect("8 bytes"));
    let (front, mut edges): (Vec<[u8; 8]>, Vec<[u8; 8]>) = records.partition(|record: &[u8; 8]| record[0] != 3);
    order(&mut edges);
    Table { name, bytes: [front, edges].concat().concat() }
}

/// The tables that are put in order: case A with its edges the other way round; and one of full size whose edges stand in a
/// random order, about one in ten of them a repeated one.
pub fn free_tables() -> Vec<Table> {
    let mut random = Random::new(7);
    let stirred = |edges: &mut [[u8; 8]]| {
        for _ in 0..100 {
            edges[random.below(1024)] = edges[random.below(1024)];
        }
        random.shuffle(edges);
    };
    vec![
        with_edges(case_a(), "A, edges descending", |edges| edges.reverse()),
        with_edges(full_size("full size", true), "full size, edges in random order, some repeated", stirred),
    ]
}

// Two functions in a line with a sync after every 63 nodes; all 500 spawns are of the second.
fn spawns() -> Table {
    let mut records = Records::default();
    for frame in [40, 24] {
        let sort = |n| {
            if n == 0 || n == 255 {
                (PLAIN, 0)
            } else {
                if n % 64 == 63 {
                    (SYNC, 0)
                } else {
                    (SPAWN, 1)
                }
            }
        };
        records.function(frame, &(0..256).map(sort).collect::<Vec<_>>());
    }
    records.table("500 spawns")
}

pub fn tables() -> Vec<Table> {
    vec![
        case_a(),
        full_size("full size, no recursion", false),
        full_size("full size, recursion", true),
        mutual(),
        line("line of 510, ascending", Order::Ascending),
        line("line of 510, descending", Order::Descending),
        line("line of 510, random", Order::Random),
        spawns(),
    ]
}

// 64 functions in a line, each of which calls the next; the last one has a sync on its only path.
fn chain(name: &'static str) -> Table {
    let mut records = Records::default();
    for function in 1..=64 {
        let instruction = if function < 64 { (CALL, function) } else { (SYNC, 0) };
        records.function(16, &[(PLAIN, 0), instruction, (PLAIN, 0)]);
    }
    records.table(name)
}

/// The tables whose synchronising sets are measured.
pub fn set_tables() -> Vec<Table> {
    vec![
        case_a(),
        chain("chain of 64, callers first"),
        full_size("full size, no recursion", false),
        full_size("full size, recursion", true),
        line("line of 510, random", Order::Random),
    ]
}
