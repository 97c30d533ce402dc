//! What came up in the inputs, and how often it has to.

use crate::answers::{Answers, Calls};
use crate::edges::{Edges, EDGES};
use crate::input::{Input, BEHIND, KINDS};
use crate::list::{List, MOST};
use crate::order::{has_ring_apart, longest_way_back, most_in_turn, with_spawns};
use crate::rounded::{adds_up_to_most, has_equal_frames, has_frame};
use crate::shown::{Shown, SHOWN};
use second::call_order::{call_order, reaching};
use second::choice::{depths, greedy_in, order, order_by};
use second::sizes::numbers_needed;
use second::table::{check, Program, Sort};
use std::cmp::Ordering;

const CALLS: [&str; 8] =
    ["check", "synchronising", "call order", "one choice", "what if", "best choice", "frames", "ordered"];

/// The numbers that a call returns are below this one.
const NUMBERS: usize = 16;

/// What is counted beside kinds, refusals and what the files show.
#[derive(Clone, Copy, PartialEq, Eq, Debug)]
enum Seen {
    Safe,
    Unsafe,
    WrongBytes,
    Guarded,
    Unguarded,
    Unmerged,
    Mixed,
    Deep,
    FrameFirst,
    EqualFrames,
    OtherByBytes,
    OtherBestByBytes,
    SmallFrame,
    LastBounded,
    UnboundedFrame,
    SumOfMost,
    Many,
    Functions,
    Nodes,
    Edges,
    Longest,
    OneFunctionMore,
    OneNodeMore,
    OneEdgeMore,
    LastNode,
    NoChoice,
    OneChoice,
    MostChoices,
    OneChoiceMore,
    HugeNumber,
    Wrapping,
    MixedList,
    OneWrong,
    WrongLater,
    ByteMissing,
    ByteMore,
    SetsShort,
    SetsExact,
    SetsLonger,
    OtherOrder,
    OtherOrderOfAll,
    InTurn,
    BySpawns,
    Recursion,
    CallerFirst,
    LongWayBack,
    RingApart,
    OrderShort,
    OrderExact,
    OrderLonger,
}

/// The least number of each in `COUNT` inputs.
const SEEN: [(Seen, &str, u64); 50] = [
    (Seen::Safe, "choices found safe", 60_000),
    (Seen::Unsafe, "choices found unsafe", 30_000),
    (Seen::WrongBytes, "choices with more than one wrong byte", 10_000),
    (Seen::Guarded, "spawns merged guarded by a best choice", 60_000),
    (Seen::Unguarded, "spawns merged unguarded by a best choice", 150_000),
    (Seen::Unmerged, "spawns left unmerged by a best choice", 100_000),
    (Seen::Mixed, "best choices with different verdicts", 30_000),
    (Seen::Deep, "accepted tables with a spawn of depth 10 or more", 4_000),
    (Seen::FrameFirst, "accepted tables where a larger frame comes before a smaller number", 20_000),
    (Seen::EqualFrames, "accepted tables where two spawned frames differ and count the same", 12_000),
    (Seen::OtherByBytes, "accepted tables whose spawns would stand otherwise by the bytes of their frames", 5_500),
    (Seen::OtherBestByBytes, "best choices that would be others by that", 30),
    (Seen::SmallFrame, "accepted tables with a frame of 1 to 17", 6_000),
    (Seen::LastBounded, "accepted tables with a frame of 65,505 to 65,520", 17_000),
    (Seen::UnboundedFrame, "accepted tables with a frame from 65,521 on", 22_000),
    (Seen::SumOfMost, "best choices with a size of 65,520 that is a sum", 300),
    (Seen::Many, "accepted tables with 20 spawns or more", 6_000),
    (Seen::Functions, "accepted tables with 64 functions", 1_500),
    (Seen::Nodes, "accepted tables with 512 nodes", 2_000),
    (Seen::Edges, "accepted tables with 1,024 edges", 1_000),
    (Seen::Longest, "accepted tables of 12,800 bytes", 500),
    (Seen::OneFunctionMore, "tables refused for a 65th function", 1_000),
    (Seen::OneNodeMore, "tables refused for a 513th node", 1_000),
    (Seen::OneEdgeMore, "tables refused for a 1,025th edge", 1_000),
    (Seen::LastNode, "spawns in node 511 merged by a best choice", 100),
    (Seen::NoChoice, "lists refused for no choice", 6_000),
    (Seen::OneChoice, "accepted lists of one choice", 20_000),
    (Seen::MostChoices, "accepted lists of 16 choices", 2_000),
    (Seen::OneChoiceMore, "lists refused for a 17th choice", 6_000),
    (Seen::HugeNumber, "lists refused for 2^40 choices or more", 6_000),
    (Seen::Wrapping, "lists as long as such a number would ask for in 64 bits", 300),
    (Seen::MixedList, "accepted lists with safe and unsafe choices", 6_000),
    (Seen::OneWrong, "lists with one wrong byte", 8_000),
    (Seen::WrongLater, "lists with the first wrong byte behind the first choice", 5_000),
    (Seen::ByteMissing, "lists one byte short", 4_000),
    (Seen::ByteMore, "lists one byte too long", 4_000),
    (Seen::SetsShort, "lists refused for sizes one number short", 5_000),
    (Seen::SetsExact, "accepted lists with just room for their sizes", 30_000),
    (Seen::SetsLonger, "accepted lists with more room than for their sizes", 30_000),
    (Seen::OtherOrder, "call orders where a function stands before a lower-numbered one", 40_000),
    (Seen::OtherOrderOfAll, "such orders of 64 functions", 1_000),
    (Seen::InTurn, "call orders with ten in a row, each a lower-numbered caller of the one before", 1_200),
    (Seen::BySpawns, "call orders that would be others if spawns were calls", 40_000),
    (Seen::Recursion, "accepted tables where a function reaches itself by calls", 30_000),
    (Seen::CallerFirst, "call orders where a function stands before one that it calls", 12_000),
    (Seen::LongWayBack, "such orders where that one takes ten calls or more to reach it back", 600),
    (Seen::RingApart, "call orders where functions that reach each other do not stand together", 6_000),
    (Seen::OrderShort, "call orders cut off where the buffer ends", 10_000),
    (Seen::OrderExact, "call orders with just room for them", 30_000),
    (Seen::OrderLonger, "call orders with more room than for them", 90_000),
];

/// The least number of inputs of a kind, and of each refusal of each call.
const LEAST_OF_A_KIND: u64 = 20;
const LEAST_REFUSALS: u64 = 1_500;

#[derive(Clone, PartialEq, Eq, Debug)]
pub struct Tally {
    kinds: [u64; KINDS.len()],
    /// How often each number was returned by each of the calls.
    numbers: [[u64; NUMBERS]; CALLS.len()],
    seen: [u64; SEEN.len()],
    shown: [u64; SHOWN.len()],
    edges: [u64; EDGES.len()],
}

impl Default for Tally {
    fn default() -> Tally {
        let numbers = [[0; NUMBERS]; CALLS.len()];
        let (seen, shown, edges) = ([0; SEEN.len()], [0; SHOWN.len()], [0; EDGES.len()]);
        Tally { kinds: [0; KINDS.len()], numbers, seen, shown, edges }
    }
}

/// The refusals of a call.
fn refusals(call: usize) -> impl Iterator<Item = usize> {
    (1..NUMBERS).filter(move |&number| match number {
        9 => call == 3 || call == 4,
        10 => call == 5,
        11 => (3..=5).contains(&call) || call == 7,
        12 => call == 4,
        13 | 14 => call == 6,
        15 => call != 7,
        _ => true,
    })
}

/// The places of the wrong bytes of a choice, or of choices one after another.
fn wrong_bytes(program: &Program, choices: &[u8]) -> Vec<usize> {
    let spawns = program.nodes.iter().map(|node| node.sort == Sort::Spawn).cycle();
    let bytes = spawns.zip(choices).enumerate();
    bytes.filter(|&(_, (spawn, &byte))| (1..=3).contains(&byte) != spawn || byte > 3).map(|(place, _)| place).collect()
}

impl Tally {
    fn see(&mut self, what: Seen, times: usize) {
        self.seen[what as usize] += times as u64;
    }

    pub fn add(&mut self, input: &Input, answers: &Answers) {
        self.kinds[input.kind as usize] += 1;
        let calls = &answers.calls;
        let (list, best, frames) = (calls.what_if.0, calls.best_choice.0, calls.frames.0);
        let (set, order) = (calls.synchronising.0, calls.call_order.0);
        let numbers = [calls.check.0, set, order, calls.one_choice.0, list, best, frames, answers.ordered.number];
        for (call, number) in numbers.into_iter().enumerate() {
            self.numbers[call][number as usize] += 1;
        }
        let edges = Edges::new(input, answers);
        for (count, (_, _, is_shown)) in self.edges.iter_mut().zip(EDGES) {
            *count += is_shown(&edges) as u64;
        }
        match check(&input.table) {
            Ok(program) => self.add_accepted(&program, input, calls),
            Err((4, place)) => {
                let more = [Seen::OneFunctionMore, Seen::OneNodeMore, Seen::OneEdgeMore];
                self.see(more[input.table[8 * place] as usize - 1], 1);
            }
            _ => {}
        }
    }

    fn add_accepted(&mut self, program: &Program, input: &Input, answers: &Calls) {
        let spawns: Vec<usize> = (0..program.nodes.len()).filter(|&n| program.nodes[n].sort == Sort::Spawn).collect();
        let depths = depths(program);
        let depth = |s: usize| depths[program.nodes[s].owner];
        self.see(Seen::Deep, spawns.iter().any(|&s| depth(s) >= 10) as usize);
        let frame_first = |pair: &[usize]| depth(pair[0]) == depth(pair[1]) && pair[0] > pair[1];
        let order = order(program);
        self.see(Seen::FrameFirst, order.windows(2).any(frame_first) as usize);
        self.see(Seen::Many, (spawns.len() >= 20) as usize);
        self.see(Seen::Functions, (program.functions.len() == 64) as usize);
        self.see(Seen::Nodes, (program.nodes.len() == 512) as usize);
        self.see(Seen::Edges, (program.edges.len() == 1024) as usize);
        self.see(Seen::Longest, (input.table.len() == 12_800) as usize);
        if answers.one_choice.0 == 0 {
            self.see(if answers.one_choice.2 == 1 { Seen::Safe } else { Seen::Unsafe }, 1);
        }
        let whole = input.choice.len() == program.nodes.len();
        self.see(Seen::WrongBytes, (whole && wrong_bytes(program, &input.choice).len() > 1) as usize);
        self.add_list(program, &input.list, answers);
        self.add_order(program, input.order.len() - BEHIND);
        self.add_files(&Shown::new(program.functions.len(), &input.files, answers.frames.0, answers.frames.1));
        self.add_frames(program, &order, answers);
        if answers.best_choice.0 == 0 {
            self.add_best(&spawns, &answers.best_choice.2);
        }
    }

    fn add_frames(&mut self, program: &Program, order: &[usize], answers: &Calls) {
        let by_bytes = order_by(program, |bytes| bytes);
        let is_other = by_bytes != order;
        self.see(Seen::EqualFrames, has_equal_frames(program, order) as usize);
        self.see(Seen::OtherByBytes, is_other as usize);
        self.see(Seen::SmallFrame, has_frame(program, 1..=17) as usize);
        self.see(Seen::LastBounded, has_frame(program, 65_505..=65_520) as usize);
        self.see(Seen::UnboundedFrame, has_frame(program, 65_521..=65_535) as usize);
        let (number, _, verdicts, sizes) = &answers.best_choice;
        if *number == 0 {
            let best = &verdicts[..program.nodes.len()];
            self.see(Seen::OtherBestByBytes, (is_other && greedy_in(program, &by_bytes) != best) as usize);
            self.see(Seen::SumOfMost, adds_up_to_most(program, &sizes[..numbers_needed(program)]) as usize);
        }
    }

    fn add_list(&mut self, program: &Program, list: &List, answers: &Calls) {
        let (nodes, bytes) = (program.nodes.len(), list.choices.len());
        match answers.what_if.0 {
            0 => {
                let safe = answers.what_if.2.count_ones() as usize;
                self.see(Seen::OneChoice, (list.number == 1) as usize);
                self.see(Seen::MostChoices, (list.number == MOST) as usize);
                self.see(Seen::MixedList, (safe > 0 && safe < list.number) as usize);
                let room = list.sizes.len() - BEHIND;
                let is_exact = room == list.number * numbers_needed(program);
                self.see(if is_exact { Seen::SetsExact } else { Seen::SetsLonger }, 1);
            }
            9 if bytes == nodes * list.number => {
                let wrong = wrong_bytes(program, &list.choices);
                self.see(Seen::OneWrong, (wrong.len() == 1) as usize);
                self.see(Seen::WrongLater, (wrong[0] >= nodes) as usize);
            }
            9 => {
                self.see(Seen::ByteMissing, (bytes + 1 == nodes * list.number) as usize);
                self.see(Seen::ByteMore, (bytes == nodes * list.number + 1) as usize);
            }
            11 => self.see(Seen::SetsShort, (list.sizes.len() - BEHIND + 1 == answers.what_if.1) as usize),
            12 => {
                self.see(Seen::NoChoice, (list.number == 0) as usize);
                self.see(Seen::OneChoiceMore, (list.number == MOST + 1) as usize);
                self.see(Seen::HugeNumber, (list.number >= 1 << 40) as usize);
                let wraps = list.number >= 1 << 40 && list.number.wrapping_mul(nodes) == bytes;
                self.see(Seen::Wrapping, wraps as usize);
            }
            _ => {}
        }
    }

    fn add_order(&mut self, program: &Program, room: usize) {
        let (order, reaching) = (call_order(program), reaching(program));
        let (functions, way_back) = (order.len(), longest_way_back(program, &order));
        self.see(Seen::OtherOrder, !order.is_sorted() as usize);
        self.see(Seen::OtherOrderOfAll, (!order.is_sorted() && functions == 64) as usize);
        self.see(Seen::InTurn, (most_in_turn(program, &order) >= 10) as usize);
        self.see(Seen::BySpawns, (with_spawns(program) != order) as usize);
        self.see(Seen::Recursion, (0..functions).any(|f| reaching[f][f]) as usize);
        self.see(Seen::CallerFirst, (way_back > 0) as usize);
        self.see(Seen::LongWayBack, (way_back >= 10) as usize);
        self.see(Seen::RingApart, has_ring_apart(&reaching, &order) as usize);
        let seen = match room.cmp(&functions) {
            Ordering::Less => Seen::OrderShort,
            Ordering::Equal => Seen::OrderExact,
            Ordering::Greater => Seen::OrderLonger,
        };
        self.see(seen, 1);
    }

    fn add_files(&mut self, files: &Shown) {
        for (count, (_, _, is_shown)) in self.shown.iter_mut().zip(SHOWN) {
            *count += is_shown(files) as u64;
        }
    }

    fn add_best(&mut self, spawns: &[usize], choice: &[u8]) {
        let with = |byte: u8| spawns.iter().filter(|&&s| choice[s] == byte).count();
        self.see(Seen::Unmerged, with(1));
        self.see(Seen::Guarded, with(2));
        self.see(Seen::Unguarded, with(3));
        self.see(Seen::Mixed, ([1, 2, 3].iter().filter(|&&byte| with(byte) > 0).count() > 1) as usize);
        self.see(Seen::LastNode, (spawns.last() == Some(&511) && choice[511] >= 2) as usize);
    }

    /// Adds what came up in other inputs.
    pub fn join(&mut self, other: &Tally) {
        let mine = self.kinds.iter_mut().chain(self.numbers.as_flattened_mut()).chain(&mut self.seen);
        let others = other.kinds.iter().chain(other.numbers.as_flattened()).chain(&other.seen);
        let (mine, others) = (mine.chain(&mut self.shown), others.chain(&other.shown));
        let (mine, others) = (mine.chain(&mut self.edges), others.chain(&other.edges));
        mine.zip(others).for_each(|(x, y)| *x += y);
    }

    pub fn print(&self) {
        let kinds: Vec<String> = KINDS.iter().zip(self.kinds).map(|((k, _), count)| format!("{count} {k:?}")).collect();
        println!("  {}", kinds.join(", "));
        for (call, numbers) in CALLS.iter().zip(self.numbers) {
            println!("  {call}: answers by number, 0 to 15: {numbers:?}");
        }
        let seen = SEEN.iter().map(|(_, what, _)| what).zip(self.seen);
        let shown = SHOWN.iter().map(|(what, ..)| what).zip(self.shown);
        let edges = EDGES.iter().map(|(what, ..)| what).zip(self.edges);
        for (what, count) in seen.chain(shown).chain(edges) {
            println!("  {what}: {count}");
        }
    }

    /// What came up less often than it has to.
    pub fn seldom(&self) -> Vec<String> {
        let mut demands = Vec::new();
        for ((kind, _), count) in KINDS.iter().zip(self.kinds) {
            demands.push((format!("inputs of the kind {kind:?}"), count, LEAST_OF_A_KIND));
        }
        for (call, numbers) in self.numbers.iter().enumerate() {
            for number in refusals(call) {
                demands.push((format!("{}, refusal {number}", CALLS[call]), numbers[number], LEAST_REFUSALS));
            }
        }
        for (&(_, what, least), count) in SEEN.iter().zip(self.seen) {
            demands.push((what.to_string(), count, least));
        }
        for (&(what, least, _), count) in SHOWN.iter().zip(self.shown) {
            demands.push((what.to_string(), count, least));
        }
        for (&(what, least, _), count) in EDGES.iter().zip(self.edges) {
            demands.push((what.to_string(), count, least));
        }
        demands.retain(|&(_, count, least)| count < least);
        demands.iter().map(|(what, count, least)| format!("{what}: {count} of at least {least}")).collect()
    }
}

#[cfg(test)]
mod tests {
    use super::*;

    /// A tally in which everything came up just as often as it has to.
    fn enough() -> Tally {
        let numbers = [[LEAST_REFUSALS; NUMBERS]; CALLS.len()];
        let (seen, shown) = (SEEN.map(|(_, _, least)| least), SHOWN.map(|(_, least, _)| least));
        Tally { kinds: [LEAST_OF_A_KIND; KINDS.len()], numbers, seen, shown, edges: EDGES.map(|(_, least, _)| least) }
    }

    #[test]
    fn what_is_seen_stands_in_order() {
        assert!(SEEN.iter().enumerate().all(|(i, &(what, _, least))| what as usize == i && least > 0));
    }

    #[test]
    fn one_less_of_anything_is_too_seldom() {
        assert!(enough().seldom().is_empty());
        for kind in 0..KINDS.len() {
            let mut tally = enough();
            tally.kinds[kind] -= 1;
            assert_eq!(tally.seldom().len(), 1);
        }
        for call in 0..CALLS.len() {
            for number in 0..NUMBERS {
                let mut tally = enough();
                tally.numbers[call][number] -= 1;
                assert_eq!(tally.seldom().len(), refusals(call).filter(|&n| n == number).count());
            }
        }
        for what in 0..SEEN.len() {
            let mut tally = enough();
            tally.seen[what] -= 1;
            assert_eq!(tally.seldom().len(), 1);
        }
        for what in 0..SHOWN.len() {
            let mut tally = enough();
            tally.shown[what] -= 1;
            assert_eq!(tally.seldom().len(), 1);
        }
        for what in 0..EDGES.len() {
            let mut tally = enough();
            tally.edges[what] -= 1;
            assert_eq!(tally.seldom().len(), 1);
        }
    }

    /// "9 arises where a choice is handed in, 10 in the best-choice call, 11 where sizes are written", 12 where a list
    /// of choices is handed in, 13 and 14 where a report is, and 15 where the writer isn't asked.
    #[test]
    fn the_refusals_of_each_call() {
        let all: Vec<Vec<usize>> = (0..CALLS.len()).map(|call| refusals(call).collect()).collect();
        assert_eq!(all[0], [1, 2, 3, 4, 5, 6, 7, 8, 15]);
        assert_eq!(all[1], [1, 2, 3, 4, 5, 6, 7, 8, 15]);
        assert_eq!(all[2], [1, 2, 3, 4, 5, 6, 7, 8, 15]);
        assert_eq!(all[3], [1, 2, 3, 4, 5, 6, 7, 8, 9, 11, 15]);
        assert_eq!(all[4], [1, 2, 3, 4, 5, 6, 7, 8, 9, 11, 12, 15]);
        assert_eq!(all[5], [1, 2, 3, 4, 5, 6, 7, 8, 10, 11, 15]);
        assert_eq!(all[6], [1, 2, 3, 4, 5, 6, 7, 8, 13, 14, 15]);
        assert_eq!(all[7], [1, 2, 3, 4, 5, 6, 7, 8, 11]);
    }

    #[test]
    fn joined_tallies_are_added() {
        let mut tally = enough();
        tally.join(&enough());
        assert_eq!(tally.kinds, [2 * LEAST_OF_A_KIND; KINDS.len()]);
        assert_eq!(tally.numbers, [[2 * LEAST_REFUSALS; NUMBERS]; CALLS.len()]);
        assert_eq!(tally.seen, SEEN.map(|(_, _, least)| 2 * least));
        assert_eq!(tally.shown, SHOWN.map(|(_, least, _)| 2 * least));
        assert_eq!(tally.edges, EDGES.map(|(_, least, _)| 2 * least));
    }
}
