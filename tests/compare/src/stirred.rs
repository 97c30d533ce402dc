//! Tables in the old free order: with edges in any order, and repeated.

use crate::refused::{records, Records};
use second::random::{Random, FULL};

const EDGE: u8 = 3;

/// Copies of edges, as far as there is room for them: a few, or one of them many times.
fn copies(random: &mut Random, edges: &Records) -> Records {
    let room = FULL[2].saturating_sub(edges.len());
    if random.once_in(6) {
        let most = if random.once_in(8) { room } else { 2 + random.below(20) };
        return vec![edges[random.below(edges.len())]; most.min(room)];
    }
    (0..(1 + random.below(4)).min(room)).map(|_| edges[random.below(edges.len())]).collect()
}

/// Two neighbours change places.
fn swap(random: &mut Random, edges: &mut Records) {
    if edges.len() > 1 {
        let place = 1 + if random.once_in(3) { edges.len() - 2 } else { random.below(edges.len() - 1) };
        edges.swap(place - 1, place);
    }
}

/// Some edges repeated, or their order changed, or both. What they say stays the same.
pub fn stir_edges(random: &mut Random, table: &mut Vec<u8>) {
    let (front, mut edges): (Records, Records) = records(table).into_iter().partition(|record| record[0] != EDGE);
    if edges.is_empty() {
        return;
    }
    let repeated = copies(random, &edges);
    match random.below(9) {
        0 => edges.reverse(),
        1 => swap(random, &mut edges),
        // Where they are seen at once: behind the ones that they repeat, or at the end
        2 => {
            edges.extend(repeated);
            edges.sort_by_key(|edge| [edge[3], edge[2], edge[5], edge[4]]);
        }
        3 => edges.extend(repeated),
        4 => random.shuffle(&mut edges),
        // By low bytes first where there are high ones, or by to-nodes first
        5 if front.len() > 256 => edges.sort_by_key(|edge| [edge[2], edge[3], edge[4], edge[5]]),
        5 => edges.sort_by_key(|edge| [edge[5], edge[4], edge[3], edge[2]]),
        _ => {
            edges.extend(repeated);
            random.shuffle(&mut edges);
        }
    }
    *table = [front, edges].concat().concat();
}

/// 15: an edge twice, or in the place of another one.
pub fn apply_15(random: &mut Random, records: &mut Records) {
    let edges: Vec<usize> = (0..records.len()).filter(|&i| records[i][0] == EDGE).collect();
    if edges.is_empty() {
        return;
    }
    let (x, y) = (edges[random.below(edges.len())], edges[random.below(edges.len())]);
    match random.below(4) {
        0 | 1 if edges.len() < FULL[2] => records.insert(x, records[x]),
        2 => records[x] = records[y],
        _ => records.swap(x, y),
    }
}

#[cfg(test)]
mod tests {
    use super::*;
    use second::ordered::ordered;
    use second::random::{table, Shape};
    use second::table::check;

    /// What is stirred says the same, and mostly is not in order.
    #[test]
    fn stirred_tables_say_the_same() {
        let mut random = Random::new(14);
        let (mut refused, mut longer) = (0, 0);
        for _ in 0..1_000 {
            let table = table(&mut random, Shape::USUAL);
            let mut other = table.clone();
            stir_edges(&mut random, &mut other);
            assert_eq!(ordered(&other, other.len()), Ok(table.clone()));
            refused += matches!(check(&other), Err((15, _))) as u32;
            longer += (other.len() > table.len()) as u32;
        }
        assert!(refused > 750 && (400..800).contains(&longer), "{refused} {longer}");
    }
}
