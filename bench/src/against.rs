//! Measures the search for the synchronising set against that of the library of an older commit, in one run. Of a ratio above 1 the library
//! of today is the faster one.

use bench::{tables, time::time};
use nagbiro::nagbiro_synchronising;

extern "C" {
    fn before_synchronising(
        table: *const u8,
        table_length: usize,
        words: *mut u64,
        words_length: usize,
        place: *mut usize,
    ) -> u32;
}

type Call = unsafe extern "C" fn(*const u8, usize, *mut u64, usize, *mut usize) -> u32;

fn set(call: Call, table: &[u8]) -> [u64; 8] {
    let (mut words, mut place) = ([0; 8], 0);
    let number = unsafe { call(table.as_ptr(), table.len(), words.as_mut_ptr(), words.len(), &mut place) };
    assert_eq!(number, 0, "refused {number} at {place}");
    words
}

fn main() {
    println!("| Table | Synchronising set, ms | Before, ms | Ratio |");
    println!("|---|---|---|---|");
    for table in tables::set_tables() {
        let (today, ours) = time(|| set(nagbiro_synchronising, &table.bytes));
        let (old, theirs) = time(|| set(before_synchronising, &table.bytes));
        assert!(today == old, "{}: they differ", table.name);
        println!("| {} | {ours:.4} | {theirs:.4} | {:.2} |", table.name, theirs / ours);
    }
}
