//! A figure placer for sheet networks in plain Rust: the other side of a differential test.
//!
//! Sheets are flat graphs of atoms (symbols), local links (joints) and free links (marks); figures also have graph
//! contexts (blanks). The tasks read texts of rows, normalise, compare, fill, place and swap.

pub mod case;
pub mod colours;
pub mod complete;
pub mod crowded;
pub mod ends;
pub mod enumerate;
pub mod fill;
pub mod generate;
pub mod graph;
pub mod narrow;
pub mod network;
pub mod open;
pub mod placing;
pub mod read;
pub mod remaining;
pub mod row;
pub mod search;
pub mod stored;
pub mod symmetry;
pub mod tasks;
pub mod ways;

pub use tasks::{claim, compare, fill, filling_of, normalise_figure, normalise_sheet, place, swap, Answer, Verdict};
