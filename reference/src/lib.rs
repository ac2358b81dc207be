//! A second implementation of documents 01 and 02, written from the papers alone and as plainly as it can be,
//! to be compared with the proved library.
//!
//! One module for each layer: `days` here is the plain one, `apptbook::raw::days` the proved one, and `answers` brings
//! what the plain ones give into the form of the proved ones. Beside them: `vectors`, files written out by hand;
//! `books`, `calendars` and `day_chains`, which make files and chains at random, `damages`, faults to be put into them,
//! and `writings`, which makes runs of writing calls; `cases`, which reads the open vectors; `calls`, the calls of both
//! implementations, and `header`, the names of all calls; `civil` and `halving`, further ways to compute dates,
//! `occurrences`, one to compute when a record falls, and `chain_rules`, one to judge day chains; `fuzz`, hostile
//! inputs for every call and for the program; `process`, which runs the proved programs; `callgrind`, which counts
//! instructions.

pub mod across_c;
pub mod answers;
pub mod book;
pub mod books;
pub mod calendar;
pub mod calendars;
pub mod callgrind;
pub mod calls;
pub mod cases;
pub mod chain_rules;
pub mod chains;
pub mod civil;
pub mod damages;
pub mod day_chains;
pub mod days;
pub mod export;
pub mod fuzz;
pub mod halving;
pub mod header;
pub mod notes;
pub mod occurrences;
pub mod pages;
pub mod printed;
pub mod process;
pub mod program;
pub mod reasons;
pub mod records;
pub mod refusal;
pub mod rng;
pub mod vectors;
pub mod writer;
pub mod writings;
