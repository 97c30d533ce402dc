//! "Called functions looked at before callers": orders worked out by hand, and the order against all orders of the
//! functions of small random tables.

mod common;

use common::*;
use second::call_order::{call_order, written_order};
use second::random::{self, Random, Shape};
use second::sync::{holds, synchronising, Set};
use second::table::{check, Node, Program, Sort};

const CALL: usize = 1;
const SPAWN: usize = 2;

/// A table of so many functions. Each has a plain node, its first and exit one, and a node for each of its calls and
/// spawns: sort, caller, target. There are no edges, since a call in any node counts. Function 0 is an entry.
fn of_targets(functions: usize, targets: &[(usize, usize, usize)]) -> Vec<u8> {
    let mut records: Vec<[usize; 5]> = (0..functions).map(|f| [1, (f == 0) as usize, f, f, 0]).collect();
    records.extend((0..functions).map(|f| [2, 0, f, 0, 0]));
    records.extend(targets.iter().map(|&(sort, caller, target)| [2, sort, caller, target, 0]));
    table(&records)
}

fn order_of(bytes: &[u8]) -> Vec<usize> {
    call_order(&check(bytes).unwrap())
}

/// The order of so many functions with these calls.
fn of_calls(functions: usize, calls: &[(usize, usize)]) -> Vec<usize> {
    let calls: Vec<_> = calls.iter().map(|&(caller, target)| (CALL, caller, target)).collect();
    order_of(&of_targets(functions, &calls))
}

#[test]
fn no_calls() {
    assert_eq!(of_calls(1, &[]), [0]);
    assert_eq!(of_calls(4, &[]), [0, 1, 2, 3]);
    assert_eq!(order_of(&case_a()), [0, 1, 2]);
}

#[test]
fn chains() {
    assert_eq!(of_calls(4, &[(0, 1), (1, 2), (2, 3)]), [3, 2, 1, 0]);
    assert_eq!(of_calls(4, &[(3, 2), (2, 1), (1, 0)]), [0, 1, 2, 3]);
    assert_eq!(of_calls(4, &[(0, 2), (2, 1), (1, 3)]), [3, 1, 2, 0]);
    let all: Vec<(usize, usize)> = (0..63).map(|f| (f, f + 1)).collect();
    assert_eq!(of_calls(64, &all), (0..64).rev().collect::<Vec<_>>());
}

/// A caller waits for the last of its targets, and for no other function.
#[test]
fn several_targets() {
    assert_eq!(of_calls(4, &[(0, 1), (0, 3)]), [1, 2, 3, 0]);
    assert_eq!(of_calls(4, &[(0, 2), (0, 2), (1, 2)]), [2, 0, 1, 3]);
    assert_eq!(of_calls(4, &[(0, 1), (2, 3)]), [1, 0, 3, 2]);
}

#[test]
fn rings() {
    assert_eq!(of_calls(2, &[(0, 1), (1, 0)]), [0, 1]);
    assert_eq!(of_calls(3, &[(0, 1), (1, 2), (2, 0)]), [0, 1, 2]);
    assert_eq!(of_calls(3, &[(0, 2), (2, 1), (1, 0)]), [0, 1, 2]);
    // Two rings, and 1 calls 2: once 2 stands nothing keeps 1, though 2 calls 3.
    assert_eq!(of_calls(4, &[(0, 1), (1, 0), (2, 3), (3, 2), (1, 2)]), [0, 2, 1, 3]);
}

/// Functions 1, 2 and 3 call each other in a ring, 0 calls 1, and 2 calls 4. At first 0 waits for 1, and 1 may stand,
/// since 2 reaches it back. Now 0 may, whatever 1 waits for. Then 2 waits for 4, and 3 may stand.
#[test]
fn ring_with_tails() {
    assert_eq!(of_calls(5, &[(0, 1), (1, 2), (2, 3), (3, 1), (2, 4)]), [1, 0, 3, 4, 2]);
    // The tail on the function that 0 calls: now 0 waits for both.
    assert_eq!(of_calls(5, &[(0, 1), (1, 2), (2, 3), (3, 1), (1, 4)]), [2, 3, 4, 1, 0]);
}

#[test]
fn calls_of_itself() {
    assert_eq!(of_calls(2, &[(0, 0)]), [0, 1]);
    assert_eq!(of_calls(2, &[(0, 0), (0, 1)]), [1, 0]);
    assert_eq!(of_calls(3, &[(0, 1), (1, 1), (1, 2)]), [2, 1, 0]);
    // That a target reaches itself is not enough.
    assert_eq!(of_calls(2, &[(0, 1), (1, 1)]), [1, 0]);
    assert_eq!(order_of(&case_f()), [0]);
}

#[test]
fn spawns_do_not_count() {
    assert_eq!(order_of(&of_targets(3, &[(SPAWN, 0, 1), (SPAWN, 1, 2)])), [0, 1, 2]);
    assert_eq!(order_of(&of_targets(3, &[(SPAWN, 0, 1), (CALL, 1, 2)])), [0, 2, 1]);
    // Neither does one that would lead back: the other two are no rings.
    assert_eq!(order_of(&of_targets(2, &[(CALL, 0, 1), (SPAWN, 1, 0)])), [1, 0]);
    assert_eq!(order_of(&of_targets(3, &[(CALL, 0, 1), (CALL, 1, 2), (SPAWN, 2, 0)])), [2, 1, 0]);
    assert_eq!(order_of(&case_b()), [1, 0]);
    assert_eq!(order_of(&case_e()), [0, 1, 2]);
}

#[test]
fn entries_do_not_matter() {
    for entries in 1..16 {
        let mut bytes = of_targets(4, &[(CALL, 0, 2), (CALL, 2, 1), (CALL, 3, 3)]);
        for f in 0..4 {
            bytes[8 * f + 1] = entries >> f & 1;
        }
        assert_eq!(order_of(&bytes), [1, 2, 0, 3]);
    }
}

#[test]
fn as_written() {
    let bytes = of_targets(3, &[(CALL, 0, 2)]);
    assert_eq!(order_of(&bytes), [1, 2, 0]);
    for room in 0..5 {
        assert_eq!(written_order(&bytes, room).unwrap(), [1, 2, 0][..room.min(3)]);
    }
    assert_eq!(written_order(&[], 3).unwrap_err(), (5, 0));
    assert_eq!(written_order(&bytes[..7], 0).unwrap_err(), (1, 0));
}

/// Where chains of so many calls from a function end.
fn ends(program: &Program, from: usize, calls: usize) -> Vec<usize> {
    if calls == 0 {
        return vec![from];
    }
    let mut all = Vec::new();
    for end in ends(program, from, calls - 1) {
        let of_end = program.nodes.iter().filter(|node| node.sort == Sort::Call && node.owner == end);
        all.extend(of_end.map(|node| node.target));
    }
    all.sort();
    all.dedup();
    all
}

/// Of each function those that it reaches, one call or more away. Of more calls than there are functions, some lead from
/// a function back to it, and may be left out.
fn reached(program: &Program) -> Vec<Vec<usize>> {
    let count = program.functions.len();
    (0..count).map(|f| (1..=count).flat_map(|calls| ends(program, f, calls)).collect()).collect()
}

/// Whether a function may stand behind these.
fn may_stand(program: &Program, reached: &[Vec<usize>], earlier: &[usize], f: usize) -> bool {
    ends(program, f, 1).iter().all(|target| earlier.contains(target) || reached[*target].contains(&f))
}

/// Whether an order of all functions is the one that is asked for: at each place stands a function that may, and no
/// lower-numbered one that is left may.
fn is_right(program: &Program, reached: &[Vec<usize>], order: &[usize]) -> bool {
    (0..order.len()).all(|place| {
        let (earlier, left) = order.split_at(place);
        let mut lower = left[1..].iter().filter(|&&f| f < left[0]);
        may_stand(program, reached, earlier, left[0]) && !lower.any(|&f| may_stand(program, reached, earlier, f))
    })
}

/// All orders of so many functions.
fn orders(functions: usize) -> Vec<Vec<usize>> {
    if functions == 0 {
        return vec![Vec::new()];
    }
    let mut all = Vec::new();
    for order in orders(functions - 1) {
        for place in 0..functions {
            let mut more = order.clone();
            more.insert(place, functions - 1);
            all.push(more);
        }
    }
    all
}

/// The program with most of its calls and spawns made calls, and the others spawns.
fn with_calls(random: &mut Random, mut program: Program) -> Program {
    for node in program.nodes.iter_mut().filter(|node| node.sort == Sort::Call || node.sort == Sort::Spawn) {
        node.sort = if random.once_in(4) { Sort::Spawn } else { Sort::Call };
    }
    program
}

/// Whether some function stands before one that it calls.
fn has_caller_first(program: &Program, order: &[usize]) -> bool {
    let place = |f: usize| order.iter().position(|&g| g == f);
    program.nodes.iter().any(|node| node.sort == Sort::Call && place(node.owner) < place(node.target))
}

/// Exactly one of all orders is right, and it is the one that is found.
#[test]
fn the_right_order() {
    let mut random = Random::new(31);
    let orders: Vec<Vec<Vec<usize>>> = (0..=5).map(orders).collect();
    let (mut other, mut rings, mut by_spawns) = (0, 0, 0);
    for _ in 0..4_000 {
        let shape = Shape { inner: 3, recursion: !random.once_in(4), ..Shape::USUAL };
        let program = check(&random::table(&mut random, shape)).unwrap();
        let program = with_calls(&mut random, program);
        let found = call_order(&program);
        let reached = reached(&program);
        let all = orders[program.functions.len()].iter();
        let right: Vec<_> = all.filter(|order| is_right(&program, &reached, order)).collect();
        assert_eq!(right, [&found]);

        // How telling the tables are.
        other += !found.is_sorted() as u32;
        rings += has_caller_first(&program, &found) as u32;
        let mut all_calls = program.clone();
        all_calls.nodes.iter_mut().filter(|n| n.sort == Sort::Spawn).for_each(|n| n.sort = Sort::Call);
        by_spawns += (call_order(&all_calls) != found) as u32;
    }
    println!("{other} with functions out of number order, {rings} with a caller first, {by_spawns} by spawns");
    assert!(other > 1_000 && rings > 300 && by_spawns > 400);
}

/// Up to 64 functions.
#[test]
fn larger_tables() {
    let mut random = Random::new(32);
    for _ in 0..200 {
        let shape = Shape {
            functions: 1 + random.below(64),
            inner: 3,
            recursion: !random.once_in(3),
            chain: random.once_in(2),
            ..Shape::USUAL
        };
        let program = check(&random::table(&mut random, shape)).unwrap();
        let program = with_calls(&mut random, program);
        let found = call_order(&program);
        let mut all = found.clone();
        all.sort();
        assert!(all.into_iter().eq(0..program.functions.len()));
        assert!(is_right(&program, &reached(&program), &found));
    }
}

/// Whether every path from a function's first node to its exit holds a node of the set. Neither end is one.
fn every_path_holds(program: &Program, set: &Set, f: usize) -> bool {
    let mut reached = vec![program.functions[f].first];
    let mut next = 0;
    while next < reached.len() {
        for &(u, v) in &program.edges {
            if u == reached[next] && !holds(set, v) && !reached.contains(&v) {
                reached.push(v);
            }
        }
        next += 1;
    }
    !reached.contains(&program.functions[f].exit)
}

fn put(program: &Program, set: &mut Set, which: impl Fn(&Node) -> bool) {
    for (n, node) in program.nodes.iter().enumerate() {
        if which(node) {
            set[n / 64] |= 1 << (n % 64);
        }
    }
}

/// What one pass over the functions finds, "from the syncs alone, taking each function once".
fn one_pass(program: &Program, order: &[usize]) -> Set {
    let mut set = [0; 8];
    put(program, &mut set, |node| node.sort == Sort::Sync);
    for &f in order {
        if every_path_holds(program, &set, f) {
            put(program, &mut set, |node| node.sort == Sort::Call && node.target == f);
        }
    }
    set
}

/// "Where no function reaches itself by calls, a single pass in it [..] finds the whole set."
#[test]
fn one_pass_is_enough() {
    let mut random = Random::new(33);
    let mut by_numbers = 0;
    for _ in 0..4_000 {
        let shape = Shape { functions: 8, recursion: false, chain: random.once_in(2), ..Shape::USUAL };
        let program = check(&random::table(&mut random, shape)).unwrap();
        let program = with_calls(&mut random, program);
        let set = synchronising(&program);
        assert_eq!(one_pass(&program, &call_order(&program)), set);
        let numbers: Vec<usize> = (0..program.functions.len()).collect();
        by_numbers += (one_pass(&program, &numbers) != set) as u32;
    }
    println!("in {by_numbers} tables a pass in number order falls short");
    assert!(by_numbers > 400);
}
