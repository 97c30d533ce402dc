//! What the edges of a table show, and how often it has to come up: where the table is refused for them, and what the
//! writer makes of them.

use crate::answers::{told, Answers, Calls};
use crate::input::Input;
use crate::refused::{field, records};
use crate::written::Written;

/// The nodes of each edge, how many records stand before these, and what was answered.
pub struct Edges<'a> {
    edges: Vec<[usize; 2]>,
    before: usize,
    length: usize,
    /// What the check of the table says, and its place.
    number: u32,
    place: usize,
    ordered: &'a Written,
    room: usize,
    of_written: Option<&'a Calls>,
}

fn ascend(edges: &[[usize; 2]]) -> bool {
    edges.windows(2).all(|pair| pair[0] < pair[1])
}

impl<'a> Edges<'a> {
    pub fn new(input: &Input, answers: &'a Answers) -> Edges<'a> {
        let (edges, others): (Vec<_>, Vec<_>) = records(&input.table).into_iter().partition(|record| record[0] == 3);
        Edges {
            edges: edges.iter().map(|edge| [field(edge, 2), field(edge, 4)]).collect(),
            before: others.len(),
            length: input.table.len(),
            number: answers.calls.check.0,
            place: answers.calls.check.1[0],
            ordered: &answers.ordered,
            room: told(&input.out),
            of_written: answers.of_written.as_ref(),
        }
    }

    /// Whether the table is refused for an edge and the one before it that are such.
    fn is_refused(&self, what: fn([usize; 2], [usize; 2]) -> bool) -> bool {
        self.number == 15 && what(self.edges[self.place - self.before - 1], self.edges[self.place - self.before])
    }

    /// Whether it is refused for another reason, and its edges do not ascend.
    fn is_refused_too(&self, numbers: &[u32]) -> bool {
        numbers.contains(&self.number) && !ascend(&self.edges)
    }

    /// Whether it is refused for its edges, and in order one of the calls refuses it under this number.
    fn is_refused_in_order(&self, number: u32) -> bool {
        let is_one = |calls: &Calls| {
            let numbers = [calls.one_choice.0, calls.what_if.0, calls.best_choice.0, calls.frames.0];
            numbers.contains(&number)
        };
        self.number == 15 && self.of_written.is_some_and(is_one)
    }

    fn is_written(&self) -> bool {
        self.ordered.number == 0
    }

    /// Whether a table is written that was not in order, and edges such as these are left of its own.
    fn is_made_of(&self, what: fn(&[[usize; 2]], &[[usize; 2]]) -> bool) -> bool {
        let mut left = self.edges.clone();
        left.sort();
        left.dedup();
        self.is_written() && self.number == 15 && what(&self.edges, &left)
    }

    /// Whether edges that are written would stand in another order if they were compared by this.
    fn is_other_by(&self, key: fn(&[usize; 2]) -> [usize; 2]) -> bool {
        let mut left = self.edges.clone();
        left.sort();
        self.is_made_of(|_, _| true) && !left.is_sorted_by_key(key)
    }

    /// How many of the records that are needed there is no room for.
    fn is_short_by(&self, bytes: usize) -> bool {
        self.ordered.number == 11 && self.ordered.place == self.room + bytes
    }
}

/// How often the edge that is there most often is there.
fn most(edges: &[[usize; 2]]) -> usize {
    edges.iter().map(|edge| edges.iter().filter(|other| *other == edge).count()).max().unwrap_or(0)
}

/// What it is, the least number of inputs in `COUNT` that show it, and whether one does.
type Row = (&'static str, u64, fn(&Edges) -> bool);

pub const EDGES: [Row; 36] = [
    ("tables refused for an edge twice", 5_000, |e| e.is_refused(|x, y| x == y)),
    ("tables refused for a lower to-node", 800, |e| e.is_refused(|x, y| x[0] == y[0] && y[1] < x[1])),
    ("tables refused for a lower from-node", 10_000, |e| e.is_refused(|x, y| y[0] < x[0])),
    ("tables refused for a lower from-node with a higher to-node", 3_000, |e| {
        e.is_refused(|x, y| y[0] < x[0] && y[1] > x[1])
    }),
    ("tables refused for nodes whose low bytes ascend", 100, |e| {
        e.is_refused(|x, y| x.map(|n| n % 256) < y.map(|n| n % 256))
    }),
    ("tables refused for their second edge", 8_000, |e| e.number == 15 && e.place == e.before + 1),
    ("tables refused for the last of ten edges or more", 500, |e| {
        e.number == 15 && e.edges.len() >= 10 && e.place + 1 == e.before + e.edges.len()
    }),
    ("tables refused behind 500 edges", 40, |e| e.number == 15 && e.place > e.before + 500),
    ("tables refused for two edges or more", 10_000, |e| e.number == 15 && !ascend(&e.edges[e.place - e.before..])),
    ("tables refused under 1 to 5 whose edges do not ascend", 6_000, |e| e.is_refused_too(&[1, 2, 3, 4, 5])),
    ("tables refused under 6 whose edges do not ascend", 1_500, |e| e.is_refused_too(&[6])),
    ("tables refused under 7 whose edges do not ascend", 1_200, |e| e.is_refused_too(&[7])),
    ("tables refused under 8 whose edges do not ascend", 1_500, |e| e.is_refused_too(&[8])),
    ("tables refused for their edges, and in order under 9", 2_000, |e| e.is_refused_in_order(9)),
    ("tables refused for their edges, and in order under 10", 1_000, |e| e.is_refused_in_order(10)),
    ("tables refused for their edges, and in order under 11", 1_000, |e| e.is_refused_in_order(11)),
    ("tables refused for their edges, and in order under 12", 1_000, |e| e.is_refused_in_order(12)),
    ("tables refused for their edges, and in order under 13", 2_000, |e| e.is_refused_in_order(13)),
    ("tables refused for their edges, and in order under 14", 1_000, |e| e.is_refused_in_order(14)),
    ("tables written as they are", 60_000, |e| e.is_written() && e.number == 0),
    ("tables written in another order", 5_000, |e| e.is_made_of(|old, new| old.len() == new.len())),
    ("tables written with edges left out", 8_000, |e| e.is_made_of(|old, new| old.len() > new.len())),
    ("tables written with edges left out alone", 1_500, |e| e.is_made_of(|old, _| old.is_sorted())),
    ("tables written that had an edge ten times or more", 700, |e| e.is_made_of(|old, _| most(old) >= 10)),
    ("tables written that had 1,024 edges and have fewer", 100, |e| {
        e.is_made_of(|old, new| old.len() == 1024 && new.len() < 1024)
    }),
    ("tables of 1,024 edges written in another order", 300, |e| e.is_made_of(|_, new| new.len() == 1024)),
    ("tables written with the order of three edges or more turned round", 1_000, |e| {
        e.is_made_of(|old, new| new.len() >= 3 && old.iter().eq(new.iter().rev()))
    }),
    ("tables written without an edge", 800, |e| e.is_written() && e.edges.is_empty()),
    ("tables of 12,800 bytes written as they are", 300, |e| e.is_written() && e.number == 0 && e.length == 12_800),
    ("tables written whose edges would stand otherwise by their to-nodes first", 8_000, |e| {
        e.is_other_by(|edge| [edge[1], edge[0]])
    }),
    ("tables written whose edges would stand otherwise by low bytes first", 350, |e| {
        e.is_other_by(|edge| edge.map(|n| n % 256 * 256 + n / 256))
    }),
    ("buffers refused that have no byte", 6_000, |e| e.ordered.number == 11 && e.room == 0),
    ("buffers refused that are one byte short", 8_000, |e| e.is_short_by(1)),
    ("buffers refused that are one record short", 8_000, |e| e.is_short_by(8)),
    ("buffers with just room for the table", 40_000, |e| e.is_written() && e.room == e.ordered.length),
    ("buffers with more room than for the table", 40_000, |e| e.is_written() && e.room > e.ordered.length),
];

#[cfg(test)]
mod tests {
    use super::*;
    use crate::answers::second;
    use crate::input::{input, BEHIND};
    use second::random::record;

    /// What the edges of a function of so many nodes show, with a buffer as long as the table.
    fn shown(nodes: usize, edges: &[(usize, usize)]) -> Vec<&'static str> {
        let mut table = vec![record(1, 1, 0, 0, 0)];
        table.extend(vec![record(2, 0, 0, 0, 0); nodes]);
        table.extend(edges.iter().map(|&(from, to)| record(3, 0, from, to, 0)));
        let mut input = input(1, 1);
        input.table = table.concat();
        input.out = vec![0; input.table.len() + BEHIND];
        rows(&input).into_iter().filter(|what| !what.contains("in order under")).collect()
    }

    fn rows(input: &Input) -> Vec<&'static str> {
        let answers = second(input);
        let edges = Edges::new(input, &answers);
        EDGES.iter().filter(|(_, _, is_shown)| is_shown(&edges)).map(|(what, ..)| *what).collect()
    }

    const EXACT: &str = "buffers with just room for the table";
    const MORE: &str = "buffers with more room than for the table";
    const SECOND: &str = "tables refused for their second edge";

    #[test]
    fn edges_in_order() {
        let as_it_is = "tables written as they are";
        assert_eq!(shown(1, &[]), [as_it_is, "tables written without an edge", EXACT]);
        assert_eq!(shown(3, &[(0, 2), (1, 0)]), [as_it_is, EXACT]);
    }

    #[test]
    fn edges_not_in_order() {
        let twice = "tables refused for an edge twice";
        let left_out = ["tables written with edges left out", "tables written with edges left out alone"];
        assert_eq!(shown(2, &[(0, 1), (0, 1)]), [twice, SECOND, left_out[0], left_out[1], MORE]);
        let other = "tables written in another order";
        assert_eq!(shown(2, &[(0, 1), (0, 0)]), ["tables refused for a lower to-node", SECOND, other, EXACT]);
        let lower = "tables refused for a lower from-node";
        assert_eq!(shown(2, &[(1, 0), (0, 0)]), [lower, SECOND, other, EXACT]);
        let higher = "tables refused for a lower from-node with a higher to-node";
        let to_nodes = "tables written whose edges would stand otherwise by their to-nodes first";
        assert_eq!(shown(2, &[(1, 0), (0, 1)]), [lower, higher, SECOND, other, to_nodes, EXACT]);
        let two = "tables refused for two edges or more";
        let turned = "tables written with the order of three edges or more turned round";
        assert_eq!(shown(3, &[(2, 2), (1, 1), (0, 0)]), [lower, SECOND, two, other, turned, EXACT]);
        let bytes = shown(300, &[(256, 256), (1, 1)]);
        let low = "tables written whose edges would stand otherwise by low bytes first";
        assert_eq!(bytes, [lower, "tables refused for nodes whose low bytes ascend", SECOND, other, low, EXACT]);
    }

    #[test]
    fn short_buffers() {
        let mut input = input(1, 1);
        input.table = [record(1, 1, 0, 0, 0), record(2, 0, 0, 0, 0)].concat();
        for (room, what) in
            [(0, "that have no byte"), (8, "that are one record short"), (15, "that are one byte short")]
        {
            input.out = vec![0; room + BEHIND];
            assert_eq!(rows(&input), [format!("buffers refused {what}")]);
        }
    }

    #[test]
    fn other_refusals() {
        let mut input = input(1, 1);
        let edge = record(3, 0, 0, 0, 0);
        input.table = [record(1, 1, 0, 0, 0), record(2, 1, 0, 0, 0), edge, edge].concat();
        assert_eq!(rows(&input), ["tables refused under 8 whose edges do not ascend"]);
        input.table.push(0);
        assert_eq!(rows(&input), ["tables refused under 1 to 5 whose edges do not ascend"]);
    }
}
