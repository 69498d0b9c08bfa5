//! A separate implementation of the rule language, written from the customer's documents alone and for obviousness, not
//! speed: the verified engine is compared with it on random programs.

pub mod cases;
pub mod coverage;
pub mod fault;
pub mod gen;
pub mod listing;
pub mod pages;
pub mod read;
pub mod repeats;
pub mod run;
pub mod shared;
pub mod shrink;
pub mod syntax;
pub mod table;
pub mod trace;
pub mod view;
pub mod word;

pub use fault::{Fault, PageFault};
pub use read::{read, Refusal};
pub use run::{run, run_with, End, Outcome};
pub use syntax::{largest_term, written, Program};
pub use view::{view, view_with};
