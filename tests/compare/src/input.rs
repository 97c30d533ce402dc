//! One input: a table, a choice, a list of choices, a name list with a report, and lent buffers, made from a seed and a
//! number.

use crate::files::{files, Files};
use crate::list::{list, List};
use crate::order::buffer;
use crate::refused::{calls, count, field, records, refused, set_field, Records};
use crate::stirred::stir_edges;
use crate::written;
use second::random::{self, record, Frames, Random, Shape, FULL};
use second::sizes::numbers_needed;
use second::table::{check_free, Node, Program, Sort};

/// How many elements stand behind the length that a call is told. Nothing may be written there.
pub const BEHIND: usize = 4;

pub struct Input {
    pub kind: Kind,
    pub table: Vec<u8>,
    pub choice: Vec<u8>,
    /// Buffers as they are before the calls, with `BEHIND` elements more than the calls are told.
    pub words: Vec<u64>,
    pub verdicts: Vec<u8>,
    pub sizes: Vec<u32>,
    /// What stands in a, b, c and the place before the calls, and in `safe`.
    pub numbers: [usize; 4],
    pub safe: u32,
    pub list: List,
    /// The buffer for the call order, as the others.
    pub order: Vec<u8>,
    pub files: Files,
    /// The buffer for the ordered table, as the others.
    pub out: Vec<u8>,
}

#[derive(Clone, Copy, PartialEq, Eq, Debug)]
pub enum Kind {
    /// A few functions, with recursion and loops. Frames of 0, of thousands, and around the ceiling.
    Small,
    /// A chain of up to 64 functions, nearly all by calls, mostly with recursion: short ways back, or long ones.
    Calls,
    /// Like small ones with neither recursion nor loops, and frames of 1 to 17 too.
    Straight,
    /// Recursion and loops with such frames. Sizes go up by 16 bytes at a time, and the second implementation takes many
    /// rounds.
    Crawling,
    /// A chain of functions, so that depths go to ten and more, mostly with recursion and loops.
    Deep,
    /// Up to 40 spawns in few functions, with recursion and loops.
    Many,
    /// 64 functions, 512 nodes and 1,024 edges, with recursion and loops and few spawns.
    Full,
    /// The same with neither recursion nor loops, with frames of 1 to 17 and many spawns.
    FullStraight,
    /// Functions, nodes and edges, some of them as many as allowed, or one more.
    Limits,
    /// A small table whose functions, nodes and edges stand behind others, so that they are the last ones allowed.
    Last,
    /// A small table with bytes changed, cut, or records moved.
    Damaged,
    /// The same of a full one.
    FullDamaged,
    /// A small table, or one like `Last`, that two checks apply to, mostly neighbouring ones.
    Refused,
}

/// The kinds, with how many of 10,000 inputs are of each. The large and the slow ones are few.
pub const KINDS: [(Kind, usize); 13] = [
    (Kind::Small, 3_699),
    (Kind::Calls, 200),
    (Kind::Straight, 1_400),
    (Kind::Crawling, 2),
    (Kind::Deep, 400),
    (Kind::Many, 400),
    (Kind::Full, 8),
    (Kind::FullStraight, 2),
    (Kind::Limits, 50),
    (Kind::Last, 150),
    (Kind::Damaged, 2_439),
    (Kind::FullDamaged, 50),
    (Kind::Refused, 1_200),
];

fn kind(random: &mut Random) -> Kind {
    let mut at = random.below(10_000);
    for (kind, share) in KINDS {
        if at < share {
            return kind;
        }
        at -= share;
    }
    unreachable!("the shares add up")
}

/// Which of functions, nodes and edges are as many as allowed. Half of the time one of them is one more.
fn limits(random: &mut Random) -> [usize; 3] {
    let mut fill = FULL.map(|most| if random.once_in(3) { most } else { 0 });
    if random.once_in(2) {
        let kind = random.below(3);
        fill[kind] = FULL[kind] + 1;
    }
    // So many that there are as many edges.
    if fill[2] > 0 {
        fill[1] = fill[1].max(320);
    }
    fill
}

/// The shapes with large frames, so that the second implementation is quick with them.
fn large_shape(random: &mut Random, kind: Kind, large: Shape) -> Shape {
    match kind {
        Kind::Deep => Shape {
            functions: 10 + random.below(8),
            inner: 2 + random.below(4),
            spawns: 6 + random.below(25),
            recursion: !random.once_in(3),
            chain: true,
            ..large
        },
        // With one node between first and exit, only the last function goes back.
        Kind::Calls => Shape {
            functions: 2 + random.below(63),
            inner: 1 + random.below(3),
            spawns: random.below(3),
            recursion: !random.once_in(4),
            chain: true,
            back: [3, FULL[0]][random.below(2)],
            ..large
        },
        // A chain has as many functions as asked for.
        Kind::Many => Shape {
            functions: 2 + random.below(5),
            inner: 12 + random.below(16),
            spawns: 20 + random.below(21),
            chain: !random.once_in(4),
            ..large
        },
        Kind::Limits => Shape {
            inner: 1 + random.below(5),
            spawns: random.below(3),
            chain: random.once_in(4),
            fill: limits(random),
            loops: true,
            ..large
        },
        // Without recursion, and with smaller frames, sizes are seldom unbounded, and each edge tells.
        Kind::Last => Shape {
            functions: 4,
            inner: 6,
            spawns: 2 + random.below(5),
            recursion: random.once_in(3),
            frames: if random.once_in(2) { Frames::Usual } else { Frames::Large },
            ..large
        },
        _ => large,
    }
}

fn shape(random: &mut Random, kind: Kind) -> Shape {
    let some = Shape { functions: 1 + random.below(6), inner: 1 + random.below(6), ..Shape::USUAL };
    let straight = Shape { frames: Frames::Small, loops: false, recursion: false, ..some };
    let large = Shape { frames: Frames::Large, loops: random.once_in(2), ..some };
    match kind {
        Kind::Small | Kind::Damaged => Shape { spawns: 1 + random.below(7), ..some },
        Kind::Refused => Shape { functions: 8, ..some },
        Kind::Straight => Shape { spawns: 1 + random.below(12), ..straight },
        Kind::Crawling => Shape { functions: 3, inner: 3, spawns: 2, frames: Frames::Small, ..some },
        Kind::Full | Kind::FullDamaged => Shape { inner: 5, spawns: random.below(6), fill: FULL, ..some },
        Kind::FullStraight => Shape { inner: 5, spawns: random.below(100), fill: FULL, ..straight },
        Kind::Calls | Kind::Deep | Kind::Many | Kind::Limits | Kind::Last => large_shape(random, kind, large),
    }
}

/// The records of the table in 8 bytes each. A damaged table may end in less.
fn swap_records(table: &mut [u8], x: usize, y: usize) {
    for i in 0..8 {
        table.swap(8 * x + i, 8 * y + i);
    }
}

/// One change that mostly leads to a refusal.
fn damage(random: &mut Random, table: &mut Vec<u8>) {
    let records = table.len() / 8;
    if records == 0 {
        table.push(random.below(4) as u8);
        return;
    }
    let place = 8 * random.below(records);
    match random.below(14) {
        0 => table.truncate(random.below(table.len() + 1)),
        1 => table.truncate(place),
        2 => table.extend(vec![random.below(4) as u8; 1 + random.below(9)]),
        3 => swap_records(table, place / 8, random.below(records)),
        4..=6 => {
            // Twice in a row there is one more of its kind, in a full table one too many.
            let at = if random.once_in(2) { place } else { 8 * random.below(records + 1) };
            let copy = table[place..place + 8].to_vec();
            table.splice(at..at, copy);
        }
        7 => {
            table.drain(place..place + 8);
        }
        // Kind, sort, and the low bytes of the fields, by small numbers, so that they are often in range.
        8 => table[place] = random.below(5) as u8,
        9 => table[place + 1] = random.below(5) as u8,
        10 => table[place + 2] = random.below(30) as u8,
        11 => table[place + 4] = random.below(30) as u8,
        12 => table[place + 2 + random.below(6)] = random.next() as u8,
        _ => table[place + random.below(8)] ^= 1 << random.below(8),
    }
}

/// A frame of less than some thousands, but 0, would take the second implementation too many rounds.
fn raise_frames(table: &mut [u8]) {
    for record in table.chunks_exact_mut(8).filter(|r| r[0] == 1) {
        if record[7] < 8 && record[6..8] != [0, 0] {
            record[7] += 8;
        }
    }
}

/// Functions with a node each, and more nodes, to stand before those of a table.
fn first_ones(random: &mut Random, functions: usize, nodes: usize) -> (Records, Records) {
    let mut first_nodes: Records = (0..functions).map(|f| record(2, 0, f, 0, 0)).collect();
    first_nodes.extend((functions..nodes).map(|_| record(2, 0, random.below(functions + 1), 0, 0)));
    let entry = random.once_in(2) as u8;
    ((0..functions).map(|f| record(1, entry, f, f, f)).collect(), first_nodes)
}

/// Edges of nodes that stand before those of a table: so many, or as many as there can be.
fn first_edges(random: &mut Random, first_nodes: &Records, count: usize) -> Records {
    let owners: Vec<usize> = first_nodes.iter().map(|node| field(node, 2)).collect();
    let nodes = 0..owners.len();
    let pairs = nodes.clone().flat_map(|from| nodes.clone().map(move |to| (from, to)));
    let all: Vec<(usize, usize)> = pairs.filter(|&(from, to)| owners[from] == owners[to]).collect();
    random.some(all, count).into_iter().map(|(from, to)| record(3, 0, from, to, 0)).collect()
}

/// Puts functions, nodes and edges before those of the table: nodes as many as there may be, or mostly so.
fn push_up(random: &mut Random, table: &[u8]) -> Vec<u8> {
    let mut old = records(table);
    let functions = if random.once_in(2) { 64 - count(&old, 1) } else { random.below(3) };
    let nodes = if random.once_in(8) { functions + random.below(200) } else { 512 - count(&old, 2) };
    for record in &mut old {
        let by = if record[0] == 2 { functions } else { nodes };
        let (a, b) = (field(record, 2), field(record, 4));
        set_field(record, 2, a + by);
        if record[0] != 2 || calls(record) {
            set_field(record, 4, b + by);
        }
    }
    let of_kind = |kind: u8| old.iter().filter(move |r| r[0] == kind).copied();
    let (mut new, first_nodes) = first_ones(random, functions, nodes);
    new.extend(of_kind(1));
    new.extend(&first_nodes);
    new.extend(of_kind(2));
    if random.once_in(2) {
        new.extend(first_edges(random, &first_nodes, 1024 - count(&old, 3)));
    }
    new.extend(of_kind(3));
    new.concat()
}

fn table(random: &mut Random, kind: Kind) -> Vec<u8> {
    let shape = shape(random, kind);
    let mut table = random::table(random, shape);
    if kind == Kind::Last {
        // Most often the last node is a call or a spawn.
        for _ in 0..8 {
            if !records(&table).iter().rfind(|r| r[0] == 2).is_some_and(calls) {
                table = random::table(random, shape);
            }
        }
    }
    // A large one now and then, so that each check applies in the last records, too.
    if kind == Kind::Last || kind == Kind::Refused && random.once_in(4) {
        table = push_up(random, &table);
    }
    // Of the large ones, which are few, more often.
    if random.once_in(if table.len() > 8_000 { 3 } else { 8 }) {
        stir_edges(random, &mut table);
    }
    match kind {
        Kind::Damaged | Kind::FullDamaged => {
            for _ in 0..1 + random.below(3) {
                damage(random, &mut table);
            }
            raise_frames(&mut table);
        }
        Kind::Limits if random.once_in(8) => table.extend(vec![0; 1 + random.below(8)]),
        Kind::Refused => table = refused(random, &table),
        _ => {}
    }
    table
}

/// A choice for nodes of a table.
pub fn choice_of(random: &mut Random, nodes: &[Node]) -> Vec<u8> {
    let mut choice = Vec::new();
    // Mostly merged, half of the time.
    let least = random.below(2);
    for node in nodes {
        let byte = if random.once_in(4) { random.below(3) } else { least + random.below(3 - least) };
        choice.push(if node.sort == Sort::Spawn { 1 + byte as u8 } else { 0 });
    }
    choice
}

/// A choice for the table, seldom one that is refused.
fn choice(random: &mut Random, program: Option<&Program>) -> Vec<u8> {
    let mut choice = choice_of(random, program.map_or(&[][..], |p| &p.nodes));
    if random.once_in(16) {
        choice.push(0);
    }
    if random.once_in(16) {
        choice.truncate(random.below(choice.len() + 1));
    }
    // Often more than one wrong byte, of which the first is the place.
    if random.once_in(8) && !choice.is_empty() {
        for _ in 0..1 + random.below(4) {
            let n = random.below(choice.len());
            choice[n] =
                if random.once_in(4) { [random.next() as u8, 255][random.below(2)] } else { random.below(6) as u8 };
        }
    }
    choice
}

/// A length of a buffer: mostly enough.
pub fn length(random: &mut Random, needed: usize) -> usize {
    match random.below(16) {
        0 => random.below(needed + 1),
        1 => needed.saturating_sub(1),
        2..=8 => needed,
        _ => needed + random.below(40),
    }
}

/// The input of this number. Equal seeds give equal inputs.
pub fn input(seed: u64, number: u64) -> Input {
    let mut random = Random::new(seed ^ number.wrapping_mul(0xD134_2543_DE82_EF95));
    for _ in 0..8 {
        random.next();
    }
    let kind = kind(&mut random);
    let table = table(&mut random, kind);
    // The other things are made for the table as it is in order.
    let program = check_free(&table).ok();
    let choice = choice(&mut random, program.as_ref());
    let nodes = program.as_ref().map_or(random.below(20), |p| p.nodes.len());
    let needed = program.as_ref().map_or(random.below(80), numbers_needed);
    let words = random.below(12) + BEHIND;
    let verdicts = length(&mut random, nodes) + BEHIND;
    let sizes = length(&mut random, needed) + BEHIND;
    let out = written::buffer(&mut random, &table);
    Input {
        kind,
        table,
        choice,
        words: (0..words).map(|_| random.next()).collect(),
        verdicts: (0..verdicts).map(|_| random.next() as u8).collect(),
        sizes: (0..sizes).map(|_| random.next() as u32).collect(),
        numbers: [0; 4].map(|_| random.next() as usize),
        safe: random.next() as u32,
        list: list(&mut random, program.as_ref()),
        order: buffer(&mut random, program.as_ref()),
        files: files(&mut random, program.as_ref()),
        out,
    }
}

#[cfg(test)]
mod tests {
    use super::*;
    use second::table::check;

    #[test]
    fn the_shares_add_up() {
        assert_eq!(KINDS.iter().map(|(_, share)| share).sum::<usize>(), 10_000);
        assert!(KINDS.iter().enumerate().all(|(i, &(kind, share))| kind as usize == i && share > 0));
    }

    /// Only the kinds that ask for it give tables that are refused for more than their edges' order, and that is most
    /// often the right one.
    #[test]
    fn tables_are_accepted() {
        let mut random = Random::new(9);
        for (kind, _) in KINDS {
            let tables: Vec<Vec<u8>> = (0..200).map(|_| table(&mut random, kind)).collect();
            let refused = tables.iter().filter(|table| check_free(table).is_err()).count();
            let free = tables.iter().filter(|table| matches!(check(table), Err((15, _)))).count();
            assert!((3..120).contains(&free), "{free} {kind:?}");
            match kind {
                Kind::Damaged | Kind::FullDamaged | Kind::Limits => assert!(refused > 50 && refused < 195, "{refused}"),
                Kind::Refused => assert!(refused > 150, "{refused}"),
                _ => assert_eq!(refused, 0, "{kind:?}"),
            }
        }
    }

    /// What is put before a table leaves it the same program, with other numbers.
    #[test]
    fn pushed_up_tables_say_the_same() {
        let mut random = Random::new(10);
        for _ in 0..500 {
            let table = random::table(&mut random, Shape::USUAL);
            let (old, new) = (check(&table).unwrap(), check(&push_up(&mut random, &table)).unwrap());
            let functions = new.functions.len() - old.functions.len();
            let nodes = new.nodes.len() - old.nodes.len();
            for (x, y) in old.functions.iter().zip(&new.functions[functions..]) {
                assert_eq!((x.entry, x.first + nodes, x.exit + nodes, x.frame), (y.entry, y.first, y.exit, y.frame));
            }
            for (x, y) in old.nodes.iter().zip(&new.nodes[nodes..]) {
                let target = if matches!(x.sort, Sort::Call | Sort::Spawn) { x.target + functions } else { 0 };
                assert_eq!((x.sort, x.owner + functions, target), (y.sort, y.owner, y.target));
            }
            let edges = new.edges.len() - old.edges.len();
            assert!(old.edges.iter().zip(&new.edges[edges..]).all(|(x, y)| (x.0 + nodes, x.1 + nodes) == *y));
            let own = new.nodes[..nodes].iter().enumerate().filter(|(n, node)| new.functions[node.owner].first != *n);
            assert!(edges == 0 || new.edges.len() == 1024 || own.count() < 200);
        }
    }
}
