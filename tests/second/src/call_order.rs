//! Document 02, "Called functions looked at before callers": the order, and the call that gives it.

use crate::table::{check, Node, Program, Refusal, Sort};

/// The call nodes of a table. Their owner is the caller, and a spawn is none.
fn calls(program: &Program) -> impl Iterator<Item = &Node> {
    program.nodes.iter().filter(|node| node.sort == Sort::Call)
}

/// Of each function which ones it reaches "by calls", by one call or more: what it calls, and what that reaches.
pub fn reaching(program: &Program) -> Vec<Vec<bool>> {
    let count = program.functions.len();
    let mut reaching = vec![vec![false; count]; count];
    let mut changed = true;
    while changed {
        changed = false;
        for call in calls(program) {
            for to in 0..count {
                let reached = to == call.target || reaching[call.target][to];
                if reached && !reaching[call.owner][to] {
                    reaching[call.owner][to] = true;
                    changed = true;
                }
            }
        }
    }
    reaching
}

/// Whether the "call targets" of a function "each stand earlier or reach it back by calls".
fn may_stand(program: &Program, reaching: &[Vec<bool>], earlier: &[usize], f: usize) -> bool {
    for call in calls(program) {
        if call.owner == f && !earlier.contains(&call.target) && !reaching[call.target][f] {
            return false;
        }
    }
    true
}

/// "at each place the lowest-numbered one left whose call targets each stand earlier or reach it back by calls"; "it
/// holds each function once".
pub fn call_order(program: &Program) -> Vec<usize> {
    let reaching = reaching(program);
    let mut order = Vec::new();
    for _ in &program.functions {
        let mut left = (0..program.functions.len()).filter(|f| !order.contains(f));
        let next = left.find(|&f| may_stand(program, &reaching, &order, f));
        // With itself, a function reaches more of them than a target does that doesn't reach it back. So of those left
        // there is one that may stand here: one that reaches the fewest.
        order.push(next.expect("one that reaches the fewest"));
    }
    order
}

/// The order of a table's functions, one byte for each, as far as a buffer of so many bytes has room.
pub fn written_order(bytes: &[u8], buffer_len: usize) -> Result<Vec<u8>, Refusal> {
    let order = call_order(&check(bytes)?);
    Ok(order.iter().take(buffer_len).map(|&f| f as u8).collect())
}
