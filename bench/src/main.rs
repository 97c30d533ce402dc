//! Measures the best-choice call and the call for one choice against the second implementation, in one run. Of a ratio above 1 the
//! proved library is the faster one. The choice of the second call is the best one. Then measures the call for a list of choices
//! against a call for each of them: of a ratio above 1 the list is the faster one. And the call for the frames of a report
//! against plain code with a hash map: of a ratio above 1 the proved library is the faster one. And the writer of ordered tables
//! against plain code with a sort, likewise.

use bench::{plain, report, tables, time::time};
use nagbiro::{nagbiro_best_choice, nagbiro_frames, nagbiro_one_choice, nagbiro_ordered, nagbiro_what_if};
use second::random::Random;
use second::table::Sort;

extern "C" {
    fn nagbiro_best_effort(table: *const u8, table_length: usize, trials: *mut u32, passes: *mut u32) -> u32;
    fn nagbiro_one_effort(
        table: *const u8,
        table_length: usize,
        choice: *const u8,
        choice_length: usize,
        passes: *mut u32,
    ) -> u32;
    fn nagbiro_list_effort(
        table: *const u8,
        table_length: usize,
        count: usize,
        choices: *const u8,
        choices_length: usize,
        sizes: *mut u32,
        sizes_length: usize,
        passes: *mut u32,
    ) -> u32;
}

// As many choices as a call takes.
const LIST: usize = 16;

// The calls, with buffers that are lent again and again.
fn best(table: &[u8], verdicts: &mut [u8], sizes: &mut [u32]) {
    let (v, s) = (verdicts.as_mut_ptr(), sizes.as_mut_ptr());
    let mut place = 0;
    let number =
        unsafe { nagbiro_best_choice(table.as_ptr(), table.len(), v, verdicts.len(), s, sizes.len(), &mut place) };
    assert_eq!(number, 0, "refused {number} at {place}");
}

fn one(table: &[u8], choice: &[u8], sizes: &mut [u32]) -> bool {
    let (c, s) = (choice.as_ptr(), sizes.as_mut_ptr());
    let (mut safe, mut place) = (0, 0);
    let number = unsafe {
        nagbiro_one_choice(table.as_ptr(), table.len(), c, choice.len(), s, sizes.len(), &mut safe, &mut place)
    };
    assert_eq!(number, 0, "refused {number} at {place}");
    safe == 1
}

fn list(table: &[u8], choices: &[u8], sizes: &mut [u32]) -> u16 {
    let (c, s) = (choices.as_ptr(), sizes.as_mut_ptr());
    let (mut safe, mut place) = (0, 0);
    let number = unsafe {
        nagbiro_what_if(table.as_ptr(), table.len(), LIST, c, choices.len(), s, sizes.len(), &mut safe, &mut place)
    };
    assert_eq!(number, 0, "refused {number} at {place}");
    safe
}

// The same by a call for each choice.
fn one_by_one(table: &[u8], choices: &[u8], sizes: &mut [u32]) -> u16 {
    let (choice, set) = (choices.len() / LIST, sizes.len() / LIST);
    let calls = choices.chunks(choice).zip(sizes.chunks_mut(set)).enumerate();
    calls.map(|(i, (choice, sizes))| u16::from(one(table, choice, sizes)) << i).sum()
}

// The trials and passes of the best-choice call.
fn best_effort(table: &[u8]) -> (u32, u32) {
    let (mut trials, mut passes) = (0, 0);
    unsafe { nagbiro_best_effort(table.as_ptr(), table.len(), &mut trials, &mut passes) };
    (trials, passes)
}

// The passes of the call for one choice.
fn one_effort(table: &[u8], choice: &[u8]) -> u32 {
    let mut passes = 0;
    unsafe { nagbiro_one_effort(table.as_ptr(), table.len(), choice.as_ptr(), choice.len(), &mut passes) };
    passes
}

// The passes of the call for a list.
fn list_effort(table: &[u8], choices: &[u8], sizes: &mut [u32]) -> u32 {
    let (c, s) = (choices.as_ptr(), sizes.as_mut_ptr());
    let mut passes = 0;
    unsafe { nagbiro_list_effort(table.as_ptr(), table.len(), LIST, c, choices.len(), s, sizes.len(), &mut passes) };
    passes
}

fn rounds(table: &[u8], choice: &[u8]) -> u64 {
    let program = second::table::check(table).expect("an accepted table");
    let set = second::sync::synchronising(&program);
    second::sizes::least(&program, &set, choice).rounds
}

// Random choices of a table, one after another, and how many sizes they have.
fn random_choices(table: &[u8]) -> (Vec<u8>, usize) {
    let program = second::table::check(table).expect("an accepted table");
    let mut random = Random::new(7);
    let nodes = program.nodes.iter().cycle().take(LIST * program.nodes.len());
    let choices = nodes.map(|node| if node.sort == Sort::Spawn { 1 + random.below(3) as u8 } else { 0 }).collect();
    (choices, LIST * second::sizes::numbers_needed(&program))
}

fn measure_list(table: &tables::Table) {
    let (choices, room) = random_choices(&table.bytes);
    let (mut sizes, mut sizes_alone) = (vec![0; room], vec![0; room]);
    let (safe, ours) = time(|| list(&table.bytes, &choices, &mut sizes));
    let (safe_alone, alone) = time(|| one_by_one(&table.bytes, &choices, &mut sizes_alone));
    assert!(safe == safe_alone && sizes == sizes_alone, "{}: they differ", table.name);
    let passes = list_effort(&table.bytes, &choices, &mut sizes);
    let passes_alone: u32 = choices.chunks(choices.len() / LIST).map(|choice| one_effort(&table.bytes, choice)).sum();
    println!(
        "| {}, {LIST} random choices | {ours:.3} | {alone:.3} | {:.2} | {passes} | {passes_alone} |",
        table.name,
        alone / ours
    );
}

fn frames(table: &mut [u8], files: &report::Files) {
    let (t, n, r) = (table.as_mut_ptr(), files.names.as_ptr(), files.report.as_ptr());
    let mut place = 0;
    let number = unsafe { nagbiro_frames(t, table.len(), n, files.names.len(), r, files.report.len(), &mut place) };
    assert_eq!(number, 0, "refused {number} at {place}");
}

// In megabytes of the report for each second.
fn measure_report(table: &tables::Table) {
    let files = report::files();
    let (mut ours, mut theirs) = (table.bytes.clone(), table.bytes.clone());
    let (_, our_time) = time(|| frames(&mut ours, &files));
    let (end, their_time) = time(|| plain::frames(&mut theirs, &files.names, &files.report));
    assert!(end.is_ok() && ours == theirs && ours != table.bytes, "{}: they differ", table.name);
    let speed = |time: f64| files.report.len() as f64 / 1e3 / time;
    println!(
        "| {} lines, {} of them listed | {:.1} | {:.1} | {:.2} |",
        report::LINES,
        report::LISTED,
        speed(our_time),
        speed(their_time),
        their_time / our_time
    );
}

fn ordered(table: &[u8], out: &mut [u8]) -> usize {
    let (mut written, mut place) = (0, 0);
    let number =
        unsafe { nagbiro_ordered(table.as_ptr(), table.len(), out.as_mut_ptr(), out.len(), &mut written, &mut place) };
    assert_eq!(number, 0, "refused {number} at {place}");
    written
}

fn measure_order(table: &tables::Table) {
    let (mut ours, mut theirs) = ([0; 12_800], [0; 12_800]);
    let (length, our_time) = time(|| ordered(&table.bytes, &mut ours));
    let (plain, their_time) = time(|| plain::ordered(&table.bytes, &mut theirs));
    assert!(plain == Ok(length) && ours == theirs && ours[..length] != table.bytes, "{}: they differ", table.name);
    println!("| {} | {our_time:.4} | {their_time:.4} | {:.2} |", table.name, their_time / our_time);
}

fn main() {
    println!("| Table | Best choice, ms | Ratio | Trials | Passes | One choice, ms | Ratio | Passes | Rounds of the second |");
    println!("|---|---|---|---|---|---|---|---|---|");
    let (mut verdicts, mut written) = (vec![0; 512], vec![0; 2304]);
    for table in tables::tables() {
        let bytes = &table.bytes;
        let (_, ours) = time(|| best(bytes, &mut verdicts, &mut written));
        let (answer, theirs) = time(|| second::choice::best(bytes, 512, 2304));
        let (choice, sizes) = answer.expect("an accepted table");
        assert!(verdicts[..choice.len()] == choice && written[..sizes.len()] == sizes, "{}: they differ", table.name);
        let (_, our_one) = time(|| one(bytes, &choice, &mut written));
        let (_, their_one) = time(|| second::safety::one_choice(bytes, &choice, 2304));
        let ((trials, passes), alone) = (best_effort(bytes), one_effort(bytes, &choice));
        println!(
            "| {} | {ours:.3} | {:.2} | {trials} | {passes} | {our_one:.3} | {:.2} | {alone} | {} |",
            table.name,
            theirs / ours,
            their_one / our_one,
            rounds(bytes, &choice),
        );
    }
    println!();
    println!("| List of choices | One call, ms | A call for each, ms | Ratio | Passes | Passes of a call for each |");
    println!("|---|---|---|---|---|---|");
    measure_list(&tables::full_size("full size, recursion", true));
    println!();
    println!("| Report | Frames, MB/s | Plain code with a hash map, MB/s | Ratio |");
    println!("|---|---|---|---|");
    measure_report(&tables::full_size("full size, recursion", true));
    println!();
    println!("| Table | Ordered, ms | Plain code with a sort, ms | Ratio |");
    println!("|---|---|---|---|");
    tables::free_tables().iter().for_each(measure_order);
}
