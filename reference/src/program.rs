//! Document 01, "What we read, write and show": the small program, as a function of its command line and its
//! standard input. Document 02, R-3: its command line ends in the word.

use crate::book;
use crate::export::export;
use crate::pages::ShortMonth;
use crate::printed::printed_page;
use crate::refusal::{Refusal, OUT_OF_RANGE};

/// For a Calendar file.
pub const ROOM: usize = 65_536;

/// What it writes to standard output. `words`: the command line without the program's name.
pub fn output(words: &[Vec<u8>], input: &[u8]) -> Vec<u8> {
    answer(words, input)
        .unwrap_or_else(|Refusal { number, place }| format!("{number} {place}\n").into_bytes())
}

fn answer(words: &[Vec<u8>], input: &[u8]) -> Result<Vec<u8>, Refusal> {
    book::read_book(input)?;
    let (word, numbers) = words.split_last().ok_or(OUT_OF_RANGE)?;
    let choice = match &word[..] {
        b"skip" => ShortMonth::Skip,
        b"last" => ShortMonth::Last,
        _ => return Err(OUT_OF_RANGE),
    };
    match numbers {
        [day] => printed_page(input, number(day)?, choice),
        [first, count] => {
            let mut file = vec![0; ROOM];
            let length = export(input, number(first)?, number(count)?, choice, &mut file)?;
            file.truncate(length);
            Ok(file)
        }
        _ => Err(OUT_OF_RANGE),
    }
}

/// One or more decimal digits and nothing else. A number over 65,535 is out of every range.
fn number(word: &[u8]) -> Result<u16, Refusal> {
    if word.is_empty() {
        return Err(OUT_OF_RANGE);
    }
    word.iter().try_fold(0u16, |number, &byte| {
        let digit = byte.checked_sub(b'0').filter(|&digit| digit <= 9).ok_or(OUT_OF_RANGE)?;
        let tens = number.checked_mul(10).ok_or(OUT_OF_RANGE)?;
        tens.checked_add(digit.into()).ok_or(OUT_OF_RANGE)
    })
}
