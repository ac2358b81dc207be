//! Document 01: a printed page is date, weekday and number of lines, then each start, end and text. Document 02, R-7: an
//! asterisk straight after the end of a moved line.

use crate::days::Facts;
use crate::pages::{each_line, facts_and_page, Line, ShortMonth};
use crate::refusal::{Refusal, NO_ROOM};

const WEEKDAYS: [&str; 7] = ["Sun", "Mon", "Tue", "Wed", "Thu", "Fri", "Sat"];

pub fn printed_page(file: &[u8], day: u16, choice: ShortMonth) -> Result<Vec<u8>, Refusal> {
    let (facts, lines) = facts_and_page(file, day, choice)?;
    let mut bytes = head(&facts, lines.len());
    bytes.reserve(lines.iter().map(line_length).sum());
    for line in lines {
        put_minute(&mut bytes, line.start);
        bytes.push(b'-');
        put_minute(&mut bytes, line.end);
        if line.moved {
            bytes.push(b'*');
        }
        bytes.push(b' ');
        bytes.extend_from_slice(&file[line.text]);
        bytes.push(b'\n');
    }
    Ok(bytes)
}

pub fn page_length(file: &[u8], day: u16, choice: ShortMonth) -> Result<usize, Refusal> {
    let (mut lines, mut length) = (0, 0);
    let facts = each_line(file, day, choice, |line| {
        lines += 1;
        length += line_length(&line);
    })?;
    Ok(head(&facts, lines).len() + length)
}

/// Gives the number of bytes written. A refusal changes none; nor do bytes past that number change.
pub fn print_page(file: &[u8], day: u16, choice: ShortMonth, buffer: &mut [u8]) -> Result<usize, Refusal> {
    let bytes = printed_page(file, day, choice)?;
    let lent = buffer.get_mut(..bytes.len()).ok_or(NO_ROOM)?;
    lent.copy_from_slice(&bytes);
    Ok(bytes.len())
}

fn head(facts: &Facts, lines: usize) -> Vec<u8> {
    let date = facts.date;
    let weekday = WEEKDAYS[usize::from(facts.weekday) - 1];
    format!("{:04}-{:02}-{:02} {weekday} {lines}\n", date.year, date.month, date.day).into_bytes()
}

/// Two times of five bytes, a hyphen, an asterisk or none, a space, the text and the end of the line.
fn line_length(line: &Line) -> usize {
    5 + 1 + 5 + usize::from(line.moved) + 1 + line.text.len() + 1
}

fn put_minute(bytes: &mut Vec<u8>, minute: u16) {
    let digit = |number: u16| b'0' + (number % 10) as u8;
    let (hour, minute) = (minute / 60, minute % 60);
    bytes.extend_from_slice(&[digit(hour / 10), digit(hour), b':', digit(minute / 10), digit(minute)]);
}
