//! Tables in the old free order, and what becomes of them, worked out by hand.

use crate::tables::{ascending, edge, of_all, of_edges, record, with, Edge};
use programs::ends::{gives, refuses, says};
use programs::failures::{run, TABLE};
use programs::input::Input;

/// Tables with what they are in order.
fn accepted() -> Vec<(Vec<u8>, Vec<u8>)> {
    let pair = |nodes, old: &[Edge], new: &[Edge]| (of_edges(nodes, old), of_edges(nodes, new));
    let down: Vec<Edge> = ascending().into_iter().rev().collect();
    // 512 edges in order, and behind them the same ones
    let twice = [&ascending()[2..514], &ascending()[2..514]].concat();
    vec![
        pair(1, &[], &[]),
        pair(1, &[(0, 0)], &[(0, 0)]),
        pair(3, &[(0, 1), (1, 2)], &[(0, 1), (1, 2)]),
        pair(3, &[(1, 2), (0, 1)], &[(0, 1), (1, 2)]),
        // From-nodes before to-nodes
        pair(6, &[(1, 2), (0, 5)], &[(0, 5), (1, 2)]),
        pair(6, &[(0, 5), (1, 2)], &[(0, 5), (1, 2)]),
        pair(6, &[(2, 1), (2, 0), (0, 5), (0, 4), (1, 3)], &[(0, 4), (0, 5), (1, 3), (2, 0), (2, 1)]),
        // High bytes before low bytes
        pair(259, &[(256, 0), (0, 257), (1, 0), (0, 2)], &[(0, 2), (0, 257), (1, 0), (256, 0)]),
        // Repeated at the end, in a row, and all of them
        pair(3, &[(0, 1), (1, 2), (0, 1)], &[(0, 1), (1, 2)]),
        pair(3, &[(0, 1), (1, 2), (1, 2)], &[(0, 1), (1, 2)]),
        pair(3, &[(1, 2), (1, 2), (0, 1), (0, 1)], &[(0, 1), (1, 2)]),
        pair(3, &[(2, 1); 1024], &[(2, 1)]),
        (of_all(&down), of_all(&ascending())),
        (of_all(&ascending()), of_all(&ascending())),
        (of_all(&twice), of_all(&ascending()[2..514])),
        (TABLE.to_vec(), TABLE.to_vec()),
    ]
}

/// Tables with what they are refused for. Where there are edges they are not in order, which is no refusal here.
fn refused() -> Vec<(Vec<u8>, u32, usize)> {
    // Records 0, 1 to 3 and 4 to 6
    let free = of_edges(3, &[(1, 2), (0, 1), (0, 1)]);
    let two = [record(1, 1, [0, 0, 0]), record(1, 0, [1, 1, 0]), record(2, 0, [0; 3]), record(2, 0, [1, 0, 0])];
    let between = [two.concat(), edge((1, 1)), edge((0, 0)), edge((0, 1))].concat();
    vec![
        (Vec::new(), 5, 0),
        (free[..55].to_vec(), 1, 6),
        (vec![0; 7], 1, 0),
        (with(free.clone(), 5, record(3, 1, [0, 1, 0])), 2, 5),
        (with(free.clone(), 6, record(3, 0, [0, 1, 1])), 2, 6),
        (with(free.clone(), 6, record(2, 0, [0; 3])), 3, 6),
        (of_edges(3, &[(2, 1); 1025]), 4, 1028),
        (with(free.clone(), 0, record(1, 0, [0; 3])), 5, 0),
        (with(free.clone(), 5, edge((0, 3))), 6, 5),
        (between, 7, 6),
        (with(free, 1, record(2, 3, [0; 3])), 8, 0),
        // As long as may be
        (vec![0; 12_800], 2, 0),
        (with(of_all(&ascending()), 1599, edge((511, 0))), 7, 1599),
    ]
}

/// Inputs longer than a table may be, whatever they begin with.
fn too_long() -> Vec<Vec<u8>> {
    let longest = of_all(&ascending());
    vec![
        vec![0; 12_801],
        [&longest[..], &[3]].concat(),
        [longest, edge((0, 0))].concat(),
        vec![1; 100_000],
        [of_edges(1, &[(0, 0); 1024]), vec![0; 5_000]].concat(),
    ]
}

/// How many runs there were. What was written is written again as it is.
pub fn hold(program: &str) -> Result<usize, String> {
    let end = |table: &[u8]| run(&[program], "", Input::Whole(table));
    for (i, (old, new)) in accepted().iter().enumerate() {
        let both = gives(&end(old)?, new).and_then(|()| gives(&end(new)?, new));
        both.map_err(|text| format!("table {i}, of {} bytes: {text}", old.len()))?;
    }
    for (table, number, place) in refused() {
        refuses(&end(&table)?, number, place).map_err(|text| format!("a table of {} bytes: {text}", table.len()))?;
    }
    for input in too_long() {
        says(&end(&input)?, "too long\n").map_err(|text| format!("an input of {} bytes: {text}", input.len()))?;
    }
    Ok(2 * accepted().len() + refused().len() + too_long().len())
}

#[cfg(test)]
mod tests {
    use super::*;

    /// The program `cat` is right about tables in order, and about nothing else.
    #[test]
    fn another_program_is_seen() {
        let text = hold("cat").expect_err("a table in another order");
        assert!(text.starts_with("table 3, of 48 bytes"), "{text}");
        assert!(hold("false").is_err() && hold("true").is_err());
    }

    /// All that is written is in order, each edge once.
    #[test]
    fn written_tables_are_in_order() {
        for (old, new) in accepted() {
            let edges = |table: &[u8]| -> Vec<[u8; 4]> {
                let edges = table.chunks(8).filter(|record| record[0] == 3);
                edges.map(|record| [record[3], record[2], record[5], record[4]]).collect()
            };
            assert!(edges(&new).windows(2).all(|pair| pair[0] < pair[1]));
            assert!(edges(&old).iter().all(|edge| edges(&new).contains(edge)));
            assert!(edges(&new).iter().all(|edge| edges(&old).contains(edge)));
        }
    }
}
