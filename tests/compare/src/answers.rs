//! What the calls answer to an input and leave in what they are lent: by the proved library, and by the second
//! implementation.

use crate::input::{Input, BEHIND};
use crate::list::List;
use crate::written::{first_ordered, first_sizes, holds, second_ordered, second_sizes, Sizes, Written};
use nagbiro::{
    nagbiro_best_choice, nagbiro_call_order, nagbiro_check, nagbiro_frames, nagbiro_one_choice, nagbiro_synchronising,
    nagbiro_what_if,
};
use second::call_order::written_order;
use second::choice::best;
use second::frames::frames;
use second::safety::one_choice;
use second::sizes::numbers_needed;
use second::sync::synchronising;
use second::table::{check, Program, Refusal};
use second::what_if::what_if;

#[derive(PartialEq, Eq, Clone, Debug)]
pub struct Answers {
    pub calls: Calls,
    pub ordered: Written,
    /// What is wrong with what the writer wrote, as far as that is seen without the second implementation.
    pub wrong: Option<&'static str>,
    /// What the calls answer to the table that the writer wrote, if that is another one than it was handed.
    pub of_written: Option<Calls>,
    /// By the library, the sizes of that table; by the second implementation, those of the table it was made of.
    pub sizes: Option<Sizes>,
}

/// The answers of the calls that take a table as it has to be.
#[derive(PartialEq, Eq, Clone, Debug)]
pub struct Calls {
    pub check: (u32, [usize; 3]),
    pub synchronising: (u32, usize, Vec<u64>),
    pub call_order: (u32, usize, Vec<u8>),
    pub one_choice: (u32, usize, u32, Vec<u32>),
    pub what_if: (u32, usize, u16, Vec<u32>),
    pub one_by_one: OneByOne,
    pub best_choice: (u32, usize, Vec<u8>, Vec<u32>),
    /// With the table as the call leaves it, and what stands behind it.
    pub frames: (u32, usize, Vec<u8>),
}

/// What the call for one choice says of the choices of a list in turn, with room enough: whether each is safe, and its
/// sizes; or the first refusal, with its place in the list. It is asked of lists that are accepted or refused for a byte.
pub type OneByOne = Result<Vec<(bool, Vec<u32>)>, Refusal>;

/// How many of the elements of a buffer a call is told.
pub fn told<T>(buffer: &[T]) -> usize {
    buffer.len() - BEHIND
}

/// Whether the list has a byte for each of so many nodes and each of its choices.
fn is_whole(list: &List, nodes: usize) -> bool {
    list.number.checked_mul(nodes) == Some(list.choices.len())
}

/// The library's.
pub fn first(input: &Input) -> Answers {
    let ordered = first_ordered(&input.table, &input.out, input.numbers);
    let new = ordered.table().filter(|&new| new != input.table);
    Answers {
        calls: first_calls(input, &input.table),
        wrong: holds(input, &ordered).err(),
        of_written: new.map(|new| first_calls(input, new)),
        sizes: new.map(|new| first_sizes(input, new)),
        ordered,
    }
}

fn first_calls(input: &Input, bytes: &[u8]) -> Calls {
    let (table, length) = (bytes.as_ptr(), bytes.len());
    let [mut a, mut b, mut c, place] = input.numbers;
    let (mut place_1, mut place_2, mut place_3) = (place, place, place);
    let mut words = input.words.clone();
    let mut sizes_1 = input.sizes.clone();
    let mut safe = input.safe;
    let mut verdicts = input.verdicts.clone();
    let mut sizes_2 = input.sizes.clone();
    let (choice, nodes) = (input.choice.as_ptr(), input.choice.len());
    let what_if = first_what_if(input, bytes);
    // Each pointer comes from a reference or a vector and goes with a length that the vector has; none overlap.
    unsafe {
        let check = nagbiro_check(table, length, &mut a, &mut b, &mut c);
        let (to, room) = (words.as_mut_ptr(), told(&words));
        let synchronising = nagbiro_synchronising(table, length, to, room, &mut place_1);
        let (to, room) = (sizes_1.as_mut_ptr(), told(&sizes_1));
        let one = nagbiro_one_choice(table, length, choice, nodes, to, room, &mut safe, &mut place_2);
        let (to, room) = (sizes_2.as_mut_ptr(), told(&sizes_2));
        let verdict_room = told(&verdicts);
        let best = nagbiro_best_choice(table, length, verdicts.as_mut_ptr(), verdict_room, to, room, &mut place_3);
        Calls {
            check: (check, [a, b, c]),
            synchronising: (synchronising, place_1, words),
            call_order: first_call_order(input, bytes),
            one_choice: (one, place_2, safe, sizes_1),
            one_by_one: first_one_by_one(&input.list, bytes, what_if.0, [a, b]),
            what_if,
            best_choice: (best, place_3, verdicts, sizes_2),
            frames: first_frames(input, bytes),
        }
    }
}

fn first_call_order(input: &Input, table: &[u8]) -> (u32, usize, Vec<u8>) {
    let (mut place, mut order) = (input.numbers[3], input.order.clone());
    let (to, room) = (order.as_mut_ptr(), told(&order));
    // As above.
    let number = unsafe { nagbiro_call_order(table.as_ptr(), table.len(), to, room, &mut place) };
    (number, place, order)
}

/// The table, which is lent to the call for frames, with bytes behind it.
fn lent_table(input: &Input, table: &[u8]) -> Vec<u8> {
    [table, &input.files.behind].concat()
}

fn first_frames(input: &Input, table: &[u8]) -> (u32, usize, Vec<u8>) {
    let (mut place, mut table) = (input.numbers[3], lent_table(input, table));
    let (names, report) = (&input.files.names, &input.files.report);
    let (to, room) = (table.as_mut_ptr(), told(&table));
    // As above.
    let number =
        unsafe { nagbiro_frames(to, room, names.as_ptr(), told(names), report.as_ptr(), told(report), &mut place) };
    (number, place, table)
}

fn first_what_if(input: &Input, table: &[u8]) -> (u32, usize, u16, Vec<u32>) {
    let list = &input.list;
    let (mut place, mut bits, mut sizes) = (input.numbers[3], list.bits, list.sizes.clone());
    let (choices, bytes) = (list.choices.as_ptr(), list.choices.len());
    let (to, room) = (sizes.as_mut_ptr(), told(&sizes));
    // As above.
    let number = unsafe {
        nagbiro_what_if(table.as_ptr(), table.len(), list.number, choices, bytes, to, room, &mut bits, &mut place)
    };
    (number, place, bits, sizes)
}

/// The library's for one choice, with room for so many numbers.
pub fn alone(table: &[u8], choice: &[u8], needed: usize) -> Result<(bool, Vec<u32>), Refusal> {
    let (mut sizes, mut safe, mut place) = (vec![0; needed], 0, 0);
    let (bytes, to) = (choice.as_ptr(), sizes.as_mut_ptr());
    // As above.
    let number = unsafe {
        nagbiro_one_choice(table.as_ptr(), table.len(), bytes, choice.len(), to, needed, &mut safe, &mut place)
    };
    if number != 0 {
        return Err((number, place));
    }
    Ok((safe == 1, sizes))
}

/// The library's for the choices of a list that it answered with a number. The table has so many functions and nodes.
fn first_one_by_one(list: &List, table: &[u8], number: u32, [functions, nodes]: [usize; 2]) -> OneByOne {
    if (number != 0 && number != 9) || !is_whole(list, nodes) {
        return Ok(Vec::new());
    }
    let mut all = Vec::new();
    for (i, choice) in list.choices.chunks(nodes).enumerate() {
        let carried_over = |(number, place)| (number, nodes * i + place);
        all.push(alone(table, choice, 4 * (functions + nodes)).map_err(carried_over)?);
    }
    Ok(all)
}

/// A buffer with its first elements overwritten, as many as there are.
pub fn written<T: Clone>(old: &[T], numbers: &[T]) -> Vec<T> {
    let mut new = old.to_vec();
    new[..numbers.len()].clone_from_slice(numbers);
    new
}

/// The second implementation's.
pub fn second(input: &Input) -> Answers {
    let ordered = second_ordered(&input.table, &input.out, input.numbers);
    let new = ordered.table().filter(|&new| new != input.table);
    Answers {
        calls: second_calls(input, &input.table),
        wrong: None,
        of_written: new.map(|new| second_calls(input, new)),
        sizes: new.map(|_| second_sizes(input)),
        ordered,
    }
}

/// "A refusal writes nothing. Longer buffers keep their tail."
fn second_calls(input: &Input, table: &[u8]) -> Calls {
    let [_, b, c, old] = input.numbers;
    let program = check(table);
    let check = match &program {
        Ok(p) => (0, [p.functions.len(), p.nodes.len(), p.edges.len()]),
        Err((number, place)) => (*number, [*place, b, c]),
    };
    let synchronising = match program.as_ref().map(synchronising) {
        Ok(set) => {
            let room = set.len().min(told(&input.words));
            (0, old, written(&input.words, &set[..room]))
        }
        Err(&(number, place)) => (number, place, input.words.clone()),
    };
    let call_order = match written_order(table, told(&input.order)) {
        Ok(order) => (0, old, written(&input.order, &order)),
        Err((number, place)) => (number, place, input.order.clone()),
    };
    let one_choice = match one_choice(table, &input.choice, told(&input.sizes)) {
        Ok((safe, sizes)) => (0, old, safe as u32, written(&input.sizes, &sizes)),
        Err((number, place)) => (number, place, input.safe, input.sizes.clone()),
    };
    let (what_if, one_by_one) = second_what_if(input, table, &program);
    let best_choice = match best(table, told(&input.verdicts), told(&input.sizes)) {
        Ok((choice, sizes)) => (0, old, written(&input.verdicts, &choice), written(&input.sizes, &sizes)),
        Err((number, place)) => (number, place, input.verdicts.clone(), input.sizes.clone()),
    };
    let frames = second_frames(input, table);
    Calls { check, synchronising, call_order, one_choice, what_if, one_by_one, best_choice, frames }
}

fn second_what_if(
    input: &Input,
    table: &[u8],
    program: &Result<Program, Refusal>,
) -> ((u32, usize, u16, Vec<u32>), OneByOne) {
    let list = &input.list;
    let of_list = what_if(table, list.number, &list.choices, told(&list.sizes));
    // "Each result equals that of the single call for the same choice."
    let one_by_one = match (program, &of_list) {
        (Ok(p), Ok((bits, sizes))) => {
            let sets = sizes.chunks(numbers_needed(p)).enumerate();
            Ok(sets.map(|(i, set)| (bits >> i & 1 == 1, set.to_vec())).collect())
        }
        (Ok(p), &Err((9, place))) if is_whole(list, p.nodes.len()) => Err((9, place)),
        _ => Ok(Vec::new()),
    };
    let what_if = match of_list {
        Ok((bits, sizes)) => (0, input.numbers[3], bits, written(&list.sizes, &sizes)),
        Err((number, place)) => (number, place, list.bits, list.sizes.clone()),
    };
    (what_if, one_by_one)
}

fn second_frames(input: &Input, table: &[u8]) -> (u32, usize, Vec<u8>) {
    let (names, report) = (&input.files.names, &input.files.report);
    match frames(table, &names[..told(names)], &report[..told(report)]) {
        Ok(table) => (0, input.numbers[3], lent_table(input, &table)),
        Err((number, place)) => (number, place, lent_table(input, table)),
    }
}
