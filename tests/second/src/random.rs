//! Random tables for comparisons. All of them are accepted, unless their shape asks for more than a table may hold.

use std::collections::BTreeSet;

/// A xorshift generator.
pub struct Random(u64);

impl Random {
    pub fn new(seed: u64) -> Random {
        Random(seed.wrapping_mul(0x9E37_79B9_7F4A_7C15) | 1)
    }

    pub fn next(&mut self) -> u64 {
        self.0 ^= self.0 << 13;
        self.0 ^= self.0 >> 7;
        self.0 ^= self.0 << 17;
        self.0
    }

    /// A number below the limit.
    pub fn below(&mut self, limit: usize) -> usize {
        (self.next() >> 16) as usize % limit
    }

    /// True once in so many times.
    pub fn once_in(&mut self, times: usize) -> bool {
        self.below(times) == 0
    }

    pub fn shuffle<T>(&mut self, all: &mut [T]) {
        for i in (1..all.len()).rev() {
            all.swap(i, self.below(i + 1));
        }
    }

    /// So many of these, or all if there are fewer, as they stand.
    pub fn some<T>(&mut self, mut all: Vec<T>, count: usize) -> Vec<T> {
        let (mut left, mut wanted) = (all.len(), count);
        all.retain(|_| {
            let is_taken = wanted > self.below(left);
            left -= 1;
            wanted -= is_taken as usize;
            is_taken
        });
        all
    }
}

/// The frames of functions.
#[derive(Clone, Copy, PartialEq, Eq)]
pub enum Frames {
    /// Some of 1 to 17 and of little more. In recursion and loops they take many rounds.
    Small,
    /// 0, or some thousands and more.
    Usual,
    /// 0, or 10,000 and more, so that even long recursion takes few rounds.
    Large,
}

/// What a random table may hold.
#[derive(Clone, Copy)]
pub struct Shape {
    /// At most so many functions.
    pub functions: usize,
    /// At most so many nodes beside first and exit in each.
    pub inner: usize,
    /// At most so many spawns.
    pub spawns: usize,
    pub frames: Frames,
    /// Edges that go back.
    pub loops: bool,
    /// Calls and spawns of the function itself and of earlier ones.
    pub recursion: bool,
    /// Just so many functions, each with a call or spawn of the next one, and no other that leads forward: so the
    /// depths grow with the functions.
    pub chain: bool,
    /// In a chain: calls and spawns of earlier functions go back to one of so many before, or to the function itself.
    pub back: usize,
    /// At least so many functions, nodes and edges, whatever the numbers above say. Edges ask for as many pairs of nodes
    /// of one function, since each stands in a table once.
    pub fill: [usize; 3],
}

/// A table may hold no more.
pub const FULL: [usize; 3] = [64, 512, 1024];

impl Shape {
    pub const USUAL: Shape = Shape {
        functions: 5,
        inner: 5,
        spawns: 5,
        frames: Frames::Usual,
        loops: true,
        recursion: true,
        chain: false,
        back: 3,
        fill: [0; 3],
    };
}

pub fn record(kind: u8, sort: u8, a: usize, b: usize, c: usize) -> [u8; 8] {
    let (a, b, c) = ((a as u16).to_le_bytes(), (b as u16).to_le_bytes(), (c as u16).to_le_bytes());
    [kind, sort, a[0], a[1], b[0], b[1], c[0], c[1]]
}

/// One of so many numbers from the least one on, mostly a multiple of 16 or next to one.
fn near_line(random: &mut Random, least: usize, count: usize) -> usize {
    let any = least + random.below(count);
    if random.once_in(3) {
        return any;
    }
    any / 16 * 16 + random.below(3) - 1
}

fn frame(random: &mut Random, frames: Frames) -> usize {
    match random.below(12) {
        0..=3 => 0,
        // The largest that are bounded, and the others
        4 => [65_504, 65_505, 65_519, 65_520][random.below(4)],
        5 => [65_521, 65_522, 65_534, 65_535][random.below(4)],
        // About a third of 65,520 and about half of it, so that sums end there, or just below or above
        6 => 21_839 + random.below(3),
        7 => [32_752, 32_753, 32_768, 32_769][random.below(4)],
        8 | 9 => near_line(random, 10_000, 50_000),
        10 if frames == Frames::Small => [1, 15, 16, 17][random.below(4)],
        11 if frames == Frames::Small => 2 + random.below(60),
        10 | 11 if frames == Frames::Large => near_line(random, 16_384, 16_384),
        _ => near_line(random, 4_000, 4_000),
    }
}

/// A frame that counts as this one does, mostly with other bytes.
fn counted_alike(random: &mut Random, frame: usize) -> usize {
    let rounded = frame.next_multiple_of(16);
    if rounded == 0 {
        return 0;
    }
    (rounded - random.below(16)).min(65_535)
}

/// A frame for each of so many functions, often one that counts as an earlier one does.
fn frames(random: &mut Random, frames: Frames, count: usize) -> Vec<usize> {
    let mut all: Vec<usize> = Vec::new();
    for f in 0..count {
        let new = if f > 0 && random.once_in(3) {
            let earlier = all[random.below(f)];
            counted_alike(random, earlier)
        } else {
            frame(random, frames)
        };
        all.push(new);
    }
    all
}

/// A function while its table is made.
struct Function {
    /// Whether its first node is its exit.
    single: bool,
    /// Its nodes in the order in which they are passed: first, inner ones, exit.
    line: Vec<usize>,
}

impl Function {
    fn first(&self) -> usize {
        self.line[0]
    }

    /// The nodes that may be other than plain.
    fn inner(&self) -> &[usize] {
        &self.line[1..self.line.len() - !self.single as usize]
    }

    fn exit(&self) -> usize {
        if self.single {
            return self.line[0];
        }
        self.line[self.line.len() - 1]
    }
}

/// The owner of each node, and the functions with their nodes.
fn functions(random: &mut Random, shape: Shape) -> (Vec<usize>, Vec<Function>) {
    let count = if shape.chain { shape.functions } else { 1 + random.below(shape.functions) };
    let count = count.max(shape.fill[0]);
    let mut owners: Vec<usize> = Vec::new();
    let mut all = Vec::new();
    for f in 0..count {
        let single = random.once_in(6);
        // Mostly some, so that few tables have no spawn.
        let inner = if !shape.chain && random.once_in(5) { 0 } else { 1 + random.below(shape.inner) };
        owners.extend(vec![f; inner + if single { 1 } else { 2 }]);
        all.push(Function { single, line: Vec::new() });
    }
    while owners.len() < shape.fill[1] {
        owners.push(random.below(count));
    }
    // The nodes stand anywhere.
    if !random.once_in(4) {
        random.shuffle(&mut owners);
    }
    for (n, &f) in owners.iter().enumerate() {
        all[f].line.push(n);
    }
    for function in &mut all {
        if random.once_in(2) {
            random.shuffle(&mut function.line);
        }
    }
    (owners, all)
}

/// The target of a call or spawn in f, a later function twice as often as any. None if there is none to be had.
fn target(random: &mut Random, shape: Shape, f: usize, functions: usize) -> Option<usize> {
    if shape.recursion && (random.once_in(3) || f + 1 == functions) {
        return Some(if shape.chain { f - random.below(f.min(shape.back) + 1) } else { random.below(functions) });
    }
    if shape.chain && f + 1 < functions {
        return Some(f + 1);
    }
    if f + 1 == functions {
        return None;
    }
    Some(f + 1 + random.below(functions - f - 1))
}

/// Sort and target of a node, with at most so many spawns left.
fn sort(random: &mut Random, target: usize, spawns: usize) -> (u8, usize) {
    match random.below(12) {
        0 => (0, 0),
        1 => (3, 0),
        2 | 3 => (1, target),
        4 | 5 if spawns == 0 => (0, 0),
        _ if spawns == 0 => (1, target),
        _ => (2, target),
    }
}

/// Sort and target of each node.
fn sorts(random: &mut Random, shape: Shape, functions: &[Function], nodes: usize) -> Vec<(u8, usize)> {
    let mut sorts = vec![(0, 0); nodes];
    let mut spawns = shape.spawns;
    // In any order, so that no function takes all spawns.
    let mut order: Vec<usize> = (0..functions.len()).collect();
    random.shuffle(&mut order);
    for f in order {
        let function = &functions[f];
        for &n in function.inner() {
            let Some(target) = target(random, shape, f, functions.len()) else { continue };
            sorts[n] = sort(random, target, spawns);
            spawns -= (sorts[n].0 == 2) as usize;
        }
        // Sometimes a sync before the exit: nothing is left on the stack there, and more spawns may be merged.
        if !function.single && function.line.len() > 2 && random.once_in(3) {
            let n = function.line[function.line.len() - 2];
            spawns += (sorts[n].0 == 2) as usize;
            sorts[n] = (3, 0);
        }
        if shape.chain && f + 1 < functions.len() {
            let n = function.inner()[random.below(function.inner().len())];
            spawns += (sorts[n].0 == 2) as usize;
            sorts[n] = (1 + (spawns > 0) as u8, f + 1);
            spawns -= (sorts[n].0 == 2) as usize;
        }
    }
    sorts
}

/// An edge from anywhere to anywhere in a function, or none where it would go back and may not.
fn any_edge(random: &mut Random, shape: Shape, line: &[usize]) -> Option<(usize, usize)> {
    let (i, j) = (random.below(line.len()), random.below(line.len()));
    if shape.loops || i < j {
        return Some((line[i], line[j]));
    }
    None
}

/// All edges that a function may have.
fn all_edges(shape: Shape, line: &[usize]) -> Vec<(usize, usize)> {
    let later = |i: usize| if shape.loops { line } else { &line[i + 1..] };
    line.iter().enumerate().flat_map(|(i, &from)| later(i).iter().map(move |&to| (from, to))).collect()
}

/// Mostly a line in each function, sometimes with a gap, and some edges more.
fn edges(random: &mut Random, shape: Shape, functions: &[Function]) -> BTreeSet<(usize, usize)> {
    let mut edges = BTreeSet::new();
    for function in functions {
        for pair in function.line.windows(2) {
            if !random.once_in(15) {
                edges.insert((pair[0], pair[1]));
            }
        }
        for _ in 0..random.below(3) {
            edges.extend(any_edge(random, shape, &function.line));
        }
    }
    if edges.len() < shape.fill[2] {
        let mut others: Vec<_> = functions.iter().flat_map(|function| all_edges(shape, &function.line)).collect();
        others.retain(|edge| !edges.contains(edge));
        edges.extend(random.some(others, shape.fill[2] - edges.len()));
    }
    edges
}

pub fn table(random: &mut Random, shape: Shape) -> Vec<u8> {
    let (owners, functions) = functions(random, shape);
    let sorts = sorts(random, shape, &functions, owners.len());
    let edges = edges(random, shape, &functions);
    // The functions stand anywhere, too.
    let mut places: Vec<usize> = (0..functions.len()).collect();
    if random.once_in(2) {
        random.shuffle(&mut places);
    }
    let an_entry = if random.once_in(4) { random.below(functions.len()) } else { 0 };
    let frames = frames(random, shape.frames, functions.len());
    let mut records = vec![[0; 8]; functions.len()];
    for (f, function) in functions.iter().enumerate() {
        let entry = f == an_entry || random.once_in(if shape.chain { 40 } else { 8 });
        records[places[f]] = record(1, entry as u8, function.first(), function.exit(), frames[f]);
    }
    for (&f, &(sort, target)) in owners.iter().zip(&sorts) {
        let target = if sort == 1 || sort == 2 { places[target] } else { 0 };
        records.push(record(2, sort, places[f], target, 0));
    }
    for (u, v) in edges {
        records.push(record(3, 0, u, v, 0));
    }
    records.concat()
}
