//! The buffer for the call order of a table's functions, and what that order shows of the calls in the table.

use crate::input::{length, BEHIND};
use second::call_order::call_order;
use second::random::Random;
use second::table::{Node, Program, Sort};

/// A buffer as `Input` has it: half of the time about as long as is needed, else of any length up to somewhat more than
/// all functions take.
pub fn buffer(random: &mut Random, program: Option<&Program>) -> Vec<u8> {
    let functions = program.map_or(0, |p| p.functions.len());
    let room = if random.once_in(2) { length(random, functions) } else { random.below(71) };
    (0..room + BEHIND).map(|_| random.next() as u8).collect()
}

/// The order if spawns were calls.
pub fn with_spawns(program: &Program) -> Vec<usize> {
    let mut other = program.clone();
    other.nodes.iter_mut().filter(|node| node.sort == Sort::Spawn).for_each(|node| node.sort = Sort::Call);
    call_order(&other)
}

fn calls(program: &Program) -> impl Iterator<Item = &Node> {
    program.nodes.iter().filter(|node| node.sort == Sort::Call)
}

/// The fewest calls by which a function reaches one that it does reach.
fn fewest_calls(program: &Program, from: usize, to: usize) -> usize {
    let mut ends = vec![from];
    let is_at_end = |_: &usize| {
        let is_called = |f: &usize| calls(program).any(|call| call.target == *f && ends.contains(&call.owner));
        ends = (0..program.functions.len()).filter(is_called).collect();
        ends.contains(&to)
    };
    (1..).find(is_at_end).expect("it reaches the other")
}

/// Of the functions that are called and stand behind their caller: the most calls that one of them takes at least to
/// reach it back. Without any it is 0.
pub fn longest_way_back(program: &Program, order: &[usize]) -> usize {
    let place = |f: usize| order.iter().position(|&g| g == f);
    let behind = calls(program).filter(|call| place(call.owner) < place(call.target));
    behind.map(|call| fewest_calls(program, call.target, call.owner)).max().unwrap_or(0)
}

/// How many functions stand one behind another at the most, each a lower-numbered caller of the one before.
pub fn most_in_turn(program: &Program, order: &[usize]) -> usize {
    let mut count = 1;
    let mut most = 1;
    for pair in order.windows(2) {
        let is_caller = calls(program).any(|call| call.owner == pair[1] && call.target == pair[0]);
        count = if is_caller && pair[1] < pair[0] { count + 1 } else { 1 };
        most = most.max(count);
    }
    most
}

/// Whether between two functions that reach each other one stands that is in no ring with them.
pub fn has_ring_apart(reaching: &[Vec<bool>], order: &[usize]) -> bool {
    let in_ring = |f: usize, g: usize| reaching[f][g] && reaching[g][f];
    order.iter().enumerate().any(|(i, &f)| {
        let last = order.iter().rposition(|&g| in_ring(f, g)).unwrap_or(i);
        (i..last).any(|place| !in_ring(f, order[place]))
    })
}

#[cfg(test)]
mod tests {
    use super::*;
    use second::call_order::reaching;
    use second::random::record;
    use second::table::check;

    /// A program with these calls, sort 1, and spawns, sort 2, of one function by another.
    fn program(functions: usize, targets: &[(u8, usize, usize)]) -> Program {
        let mut records: Vec<[u8; 8]> = (0..functions).map(|f| record(1, 1, f, f, 0)).collect();
        records.extend((0..functions).map(|f| record(2, 0, f, 0, 0)));
        records.extend(targets.iter().map(|&(sort, caller, target)| record(2, sort, caller, target, 0)));
        check(&records.concat()).expect("a table")
    }

    /// Way back, functions in turn, and whether a ring stands apart.
    fn shown(functions: usize, calls: &[(usize, usize)]) -> (usize, usize, bool) {
        let targets: Vec<_> = calls.iter().map(|&(caller, target)| (1, caller, target)).collect();
        let program = program(functions, &targets);
        let order = call_order(&program);
        let is_apart = has_ring_apart(&reaching(&program), &order);
        (longest_way_back(&program, &order), most_in_turn(&program, &order), is_apart)
    }

    #[test]
    fn what_orders_show() {
        assert_eq!(shown(2, &[]), (0, 1, false));
        assert_eq!(shown(2, &[(0, 0)]), (0, 1, false));
        assert_eq!(shown(4, &[(0, 1), (1, 2), (2, 3)]), (0, 4, false));
        assert_eq!(shown(4, &[(0, 1), (2, 3)]), (0, 2, false));
        assert_eq!(shown(3, &[(0, 1), (1, 0)]), (1, 1, false));
        assert_eq!(shown(3, &[(0, 1), (1, 2), (2, 0)]), (2, 1, false));
        // 0 2 1 3: ring 0 1 has 2 between, and ring 2 3 has 1.
        assert_eq!(shown(4, &[(0, 1), (1, 0), (2, 3), (3, 2), (1, 2)]), (1, 2, true));
        assert_eq!(shown(5, &[(0, 1), (1, 2), (2, 3), (3, 1), (2, 4)]), (2, 2, true));
    }

    #[test]
    fn spawns_as_calls() {
        let program = program(2, &[(2, 0, 1)]);
        assert_eq!((call_order(&program), with_spawns(&program)), (vec![0, 1], vec![1, 0]));
    }
}
