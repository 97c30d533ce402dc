//! Tables by their edges.

pub type Edge = (u16, u16);

pub fn record(kind: u8, sort: u8, [a, b, c]: [u16; 3]) -> Vec<u8> {
    let fields = [a, b, c].map(u16::to_le_bytes);
    [&[kind, sort], fields.as_flattened()].concat()
}

pub fn edge((from, to): Edge) -> Vec<u8> {
    record(3, 0, [from, to, 0])
}

fn records(kind: u8, count: u16, fields: fn(u16) -> [u16; 3]) -> Vec<u8> {
    (0..count).flat_map(|number| record(kind, (kind == 1) as u8, fields(number))).collect()
}

fn with_edges(front: Vec<u8>, edges: &[Edge]) -> Vec<u8> {
    [front, edges.iter().flat_map(|&pair| edge(pair)).collect()].concat()
}

/// An entry with frame 258 and so many plain nodes, of which 0 is the first one and the exit.
pub fn of_edges(nodes: u16, edges: &[Edge]) -> Vec<u8> {
    with_edges([records(1, 1, |_| [0, 0, 258]), records(2, nodes, |_| [0, 0, 0])].concat(), edges)
}

/// 64 entries, of which number f has the eight nodes from 8 x f on.
pub fn of_all(edges: &[Edge]) -> Vec<u8> {
    let front = [records(1, 64, |f| [8 * f, 8 * f + 7, f]), records(2, 512, |n| [n / 8, 0, 0])];
    with_edges(front.concat(), edges)
}

/// 1,024 edges in order: from each node one to the first node of its function, and one to the last.
pub fn ascending() -> Vec<Edge> {
    (0..512).flat_map(|n| [(n, n / 8 * 8), (n, n / 8 * 8 + 7)]).collect()
}

/// The bytes of all records, with another one in this place.
pub fn with(mut table: Vec<u8>, place: usize, record: Vec<u8>) -> Vec<u8> {
    table.splice(8 * place..8 * place + 8, record);
    table
}

#[cfg(test)]
mod tests {
    use super::*;

    #[test]
    fn tables_are_as_said() {
        let two = of_edges(2, &[(1, 256)]);
        let bytes: [[u8; 8]; 4] =
            [[1, 1, 0, 0, 0, 0, 2, 1], [2, 0, 0, 0, 0, 0, 0, 0], [2, 0, 0, 0, 0, 0, 0, 0], [3, 0, 1, 0, 0, 1, 0, 0]];
        assert_eq!(two, bytes.concat());
        assert_eq!(with(two, 3, edge((1, 0)))[24..], [3, 0, 1, 0, 0, 0, 0, 0]);
        assert_eq!(of_all(&ascending()).len(), 12_800);
        assert!(ascending().windows(2).all(|pair| pair[0] < pair[1]));
    }
}
