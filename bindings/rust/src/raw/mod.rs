//! The header as it is: the calls that are linked, and answers as structs with every field.
//!
//! Beside each call that is lent bytes stands the same call by slices, which is safe and gives the same answer. The
//! calls on days take numbers alone, that of the default choice takes nothing: they are safe as they are.

// include/apptbook.h says what each of them is.
#![allow(missing_docs)]

pub mod book;
pub mod calendar;
pub mod chains;
pub mod days;
pub mod export;
pub mod pages;
pub mod reasons;
pub mod writer;
