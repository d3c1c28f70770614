// The rules of document 01 once more, and the texts, reports and recordings of 02, written from these alone, on trees and lists and for
// clarity: what the second program answers by, and what the generator knows valid states and what is kept by.

pub mod add;
pub mod bytes;
pub mod capture;
pub mod central;
pub mod check;
pub mod folding;
pub mod formula;
pub mod grammar;
pub mod mend;
pub mod parse;
pub mod print;
pub mod progression;
pub mod recording;
pub mod refusal;
pub mod report;
pub mod row;
pub mod rule_file;
pub mod runs;
pub mod splitting;
pub mod state;
pub mod stretch;
pub mod text;
pub mod watch;
