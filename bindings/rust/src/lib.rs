//! HP 95LX appointment books, Windows Calendar files and HP 200LX day chains: the calls of the proved library, as
//! `include/apptbook.h` has them, safe to call.
//!
//! A call gets slices, keeps nothing and allocates nothing. It answers `Ok`, or `Err` with the [`Refusal`]: its number
//! (see [`refusals`]) and its place. Texts and notes are slices of the caller's own file. A call takes up to 90 kB of
//! stack.
//!
//! ```
//! use apptbook::{page_length, print_page, ShortMonth};
//!
//! let book = std::fs::read("../../examples/case.book")?;
//! let choice = ShortMonth::default();
//! let mut page = vec![0; page_length(&book, 4822, choice)?];
//! print_page(&book, 4822, choice, &mut page)?;
//! assert_eq!(page, b"1993-03-15 Mon 1\n10:00-11:00 Dep\n");
//! # Ok::<(), Box<dyn std::error::Error>>(())
//! ```

#![deny(missing_docs)]
#![deny(clippy::undocumented_unsafe_blocks)]

mod book;
mod calendar;
mod chains;
mod days;
mod export;
mod pages;
pub mod raw;
mod reasons;
mod records;
pub mod refusals;
mod writer;

pub use book::{note_line, note_lines, read_book, record, Book, Settings};
pub use calendar::{
    calendar_appointment, calendar_appointments, calendar_day, read_calendar, Appointment, Descriptor,
    FLAG_ALARM, FLAG_SPECIAL_TIME,
};
pub use chains::check_chains;
pub use days::{
    calendar_of_psion, date_of_day, day_facts, day_of_date, is_real_date, month_length, next_day,
    psion_of_calendar, weekday, Date, Facts,
};
pub use export::export;
pub use pages::{
    falls_on, next_occurrence, page_length, page_line, page_lines, print_page, Falls, Occurrence, PageLine,
    ShortMonth,
};
pub use reasons::{why, Reason};
pub use records::{Entry, Record, Rule, Times};
pub use refusals::Refusal;
pub use writer::{add, close, open, Writer};

/// `APPTBOOK_VERSION` of the header that this crate follows: raised whenever a call is added or changed.
pub const VERSION: u32 = 5;
