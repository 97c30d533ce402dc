//! A second implementation of document 01, and of what document 02 has changed so far, to compare the first with. It is
//! plain and slow, follows the order and the words of both, and quotes the sentence that each piece stands for.

pub mod call_order;
pub mod choice;
pub mod frames;
pub mod listing;
pub mod ordered;
pub mod random;
pub mod safety;
pub mod sizes;
pub mod sync;
pub mod table;
pub mod what_if;
