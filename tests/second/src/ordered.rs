//! Document 02, "One order for edges": the writer of ordered tables.

use crate::random::record;
use crate::table::{check_free, Refusal};

/// "a writer that takes a table in the old free order and puts out the ordered one": what it writes into a buffer of so
/// many bytes. "What it writes [..] has the same function and node records and the same set of edges", and those "ascend
/// by from-node and then to-node, each once".
pub fn ordered(table: &[u8], buffer_len: usize) -> Result<Vec<u8>, Refusal> {
    // 15 is a check that "the writer itself doesn't give".
    let program = check_free(table)?;
    let mut edges = program.edges;
    edges.sort();
    edges.dedup();
    // Functions and nodes stand first, in records of 8 bytes.
    let mut written = table[..8 * (program.functions.len() + program.nodes.len())].to_vec();
    for (from, to) in edges {
        written.extend(record(3, 0, from, to, 0));
    }
    // "The length written is returned; a buffer shorter than that gives 11", place "length needed".
    if buffer_len < written.len() {
        return Err((11, written.len()));
    }
    Ok(written)
}
