//! Bytes after the end record, by request R-1: books with the number and the place that they are refused with.

use super::{every_kind, FAULTS, WHOLE_CASE};

pub struct Case {
    pub name: String,
    pub file: Vec<u8>,
    /// 0 and 0: accepted.
    pub answer: (u32, usize),
}

const ACCEPTED: (u32, usize) = (0, 0);

/// What is no filler, and may look like one or like an end record.
const WRONG: [u8; 6] = [0x00, 0x1B, 0x19, 0x32, 0xFF, 0x9A];

fn case(name: String, parts: &[&[u8]], answer: (u32, usize)) -> Case {
    Case { name, file: parts.concat(), answer }
}

pub fn fillers(count: usize) -> Vec<u8> {
    vec![0x1A; count]
}

/// The whole case with so many fillers.
pub fn filled(count: usize) -> Vec<u8> {
    [&WHOLE_CASE[..], &fillers(count)].concat()
}

/// So many, of which these are others.
fn fillers_but(count: usize, others: &[(usize, u8)]) -> Vec<u8> {
    let mut bytes = fillers(count);
    for &(at, byte) in others {
        bytes[at] = byte;
    }
    bytes
}

/// The whole case with padding, of so many bytes.
pub fn padded(size: usize, padding: u8) -> Vec<u8> {
    let length = (size - 18) as u16;
    let padding = vec![padding; size - 33];
    [&WHOLE_CASE[..13], &length.to_le_bytes(), &WHOLE_CASE[15..30], &padding, &WHOLE_CASE[30..]].concat()
}

pub fn every_number() -> impl Iterator<Item = Case> {
    (0..=130).map(|count| {
        let answer = if count <= 127 { ACCEPTED } else { (9, 33) };
        Case { name: format!("{count} fillers"), file: filled(count), answer }
    })
}

pub fn every_wrong_one() -> impl Iterator<Item = Case> {
    let places = (1..=127).flat_map(|count| (0..count).map(move |at| (count, at)));
    places.flat_map(|(count, at)| {
        WRONG.into_iter().map(move |byte| {
            let name = format!("{byte:02X}h at {at} of {count}");
            case(name, &[&WHOLE_CASE, &fillers_but(count, &[(at, byte)])], (9, 33 + at))
        })
    })
}

/// The first of two counts.
pub fn two_wrong_ones() -> impl Iterator<Item = Case> {
    let pairs = [2, 3, 64, 127].into_iter().flat_map(|count| {
        (1..count).flat_map(move |second| (0..second).map(move |first| (count, first, second)))
    });
    pairs.flat_map(|(count, first, second)| {
        [(0x00, 0xFF), (0x1B, 0x1B), (0x32, 0x00)].into_iter().map(move |(one, other)| {
            let name = format!("{one:02X}h at {first} and {other:02X}h at {second} of {count}");
            let bytes = fillers_but(count, &[(first, one), (second, other)]);
            case(name, &[&WHOLE_CASE, &bytes], (9, 33 + first))
        })
    })
}

/// The first byte counts, wherever the wrong one is.
pub fn too_many_and_a_wrong_one() -> impl Iterator<Item = Case> {
    let places = [128, 129, 130, 255, 256, 1_000].into_iter();
    places.flat_map(|count| (0..count).map(move |at| (count, at))).flat_map(|(count, at)| {
        WRONG.into_iter().map(move |byte| {
            let name = format!("{byte:02X}h at {at} of {count}");
            case(name, &[&WHOLE_CASE, &fillers_but(count, &[(at, byte)])], (9, 33))
        })
    })
}

/// 65,535 bytes and one more, with so many fillers, right or with a wrong last one; and many more.
pub fn the_greatest_size() -> Vec<Case> {
    let mut cases = vec![];
    for count in [0, 1, 2, 64, 126, 127] {
        let (book, longer) = (padded(65_535 - count, 0), padded(65_536 - count, 0));
        let right = fillers(count);
        cases.push(case(format!("{count} up to 65,535"), &[&book, &right], ACCEPTED));
        cases.push(case(format!("{count} up to 65,536"), &[&longer, &right], (1, 0)));
        if let Some(last) = count.checked_sub(1) {
            let wrong = fillers_but(count, &[(last, 0x00)]);
            cases.push(case(format!("{count} up to 65,535, the last wrong"), &[&book, &wrong], (9, 65_534)));
            cases.push(case(format!("{count} up to 65,536, the last wrong"), &[&longer, &wrong], (1, 0)));
            cases.push(case(format!("{count} zeros up to 65,536"), &[&longer, &vec![0; count]], (1, 0)));
        }
    }
    for count in [128, 129, 65_502] {
        let book = padded(65_535 - count, 0);
        let place = 65_535 - count;
        cases.push(case(format!("{count} up to 65,535"), &[&book, &fillers(count)], (9, place)));
        cases.push(case(format!("{count} past 65,535"), &[&book, &fillers(count + 1)], (1, 0)));
        cases.push(case(format!("{count} and many more"), &[&book, &fillers(count + 70_000)], (1, 0)));
    }
    cases
}

/// Those that are not about where the file ends, with all that may come after the end record.
pub fn faults_in_records() -> Vec<Case> {
    let mut cases = vec![];
    let after = [fillers(1), fillers(127), fillers(128), fillers_but(2, &[(1, 0)]), vec![0]];
    for &(at, bytes, number, place) in FAULTS.iter().filter(|fault| fault.2 != 4) {
        let mut file = every_kind();
        file[at..at + bytes.len()].copy_from_slice(bytes);
        for after in &after {
            let name = format!("{bytes:?} at {at}, then {after:?}");
            cases.push(case(name, &[&file, after], (number, place)));
        }
    }
    cases
}

/// What is left of the whole case, how many fillers follow, and the answer.
const WITHOUT_AN_END: &[(usize, usize, (u32, usize))] = &[
    (0, 1, (2, 0)),
    (0, 127, (2, 0)),
    (4, 128, (2, 0)),
    (5, 7, (3, 5)),
    (11, 1, (3, 5)),
    (11, 127, (3, 5)),
    // Fewer than three bytes are no head; three are one, and its type is unknown.
    (12, 1, (4, 12)),
    (12, 2, (4, 12)),
    (12, 3, (5, 12)),
    (30, 1, (4, 30)),
    (30, 2, (4, 30)),
    (30, 3, (5, 30)),
    (30, 98, (5, 30)),
    (30, 127, (5, 30)),
    (30, 128, (5, 30)),
    // In the end record they are its length.
    (31, 1, (4, 30)),
    (31, 2, (5, 30)),
    (31, 97, (5, 30)),
    (32, 1, (5, 30)),
    (32, 96, (5, 30)),
    // In the record they are its body: from 29 on its text ends with a filler.
    (15, 14, (4, 12)),
    (29, 1, (4, 30)),
    (29, 3, (4, 30)),
    (29, 4, (5, 30)),
];

pub fn without_an_end() -> impl Iterator<Item = Case> {
    WITHOUT_AN_END.iter().map(|&(length, count, answer)| {
        let name = format!("{count} after {length} bytes");
        case(name, &[&WHOLE_CASE[..length], &fillers(count)], answer)
    })
}

/// A record with its padding ends where its length says, be they fillers or not.
pub fn padding() -> Vec<Case> {
    let mut cases = vec![];
    for (byte, size) in [(0x1A, 34), (0x1A, 160), (0x1A, 300), (0x00, 34), (0x00, 300), (0x32, 65_408)] {
        let name = |count| format!("{count} after {size} bytes, {byte:02X}h for padding");
        for count in [0, 1, 127] {
            cases.push(case(name(count), &[&padded(size, byte), &fillers(count)], ACCEPTED));
        }
        let last = fillers_but(127, &[(126, byte ^ 1)]);
        cases.push(case(name(127), &[&padded(size, byte), &last], (9, size + 126)));
        // Before the end record and not in the record's length.
        let between = [&padded(size, byte)[..size - 3], &fillers(1)].concat();
        cases.push(case(name(1), &[&between, &[50, 0, 0]], (5, size - 3)));
    }
    // The record takes in the end record, and then one filler more.
    for (length, count, answer) in [
        (18, 0, (4, 33)),
        (18, 2, (4, 33)),
        (18, 3, (5, 33)),
        (19, 0, (4, 12)),
        (19, 1, (4, 34)),
        (19, 4, (5, 34)),
    ] {
        let mut file = filled(count);
        file[13] = length;
        cases.push(Case { name: format!("{count} after a record of {length} bytes"), file, answer });
    }
    cases
}
