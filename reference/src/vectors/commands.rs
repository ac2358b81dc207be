//! Command lines, and what the program writes for the book of the whole case, written out by hand.

const PAGE: &[u8] = b"1993-03-15 Mon 1\n10:00-11:00 Dep\n";
const REFUSED: &[u8] = b"11 0\n";

type Command = (&'static [&'static [u8]], &'static [u8]);

pub const PAGES: &[Command] = &[
    (&[b"4822", b"last"], PAGE),
    (&[b"4822", b"skip"], PAGE),
    (&[b"0004822", b"skip"], PAGE),
    (&[b"00000000000000000000000000000004822", b"last"], PAGE),
    (&[b"4821", b"last"], b"1993-03-14 Sun 0\n"),
    (&[b"0", b"last"], b"1980-01-01 Tue 0\n"),
    (&[b"000", b"skip"], b"1980-01-01 Tue 0\n"),
    (&[b"59", b"skip"], b"1980-02-29 Fri 0\n"),
    (&[b"7364", b"last"], b"2000-02-29 Tue 0\n"),
    (&[b"43829", b"last"], b"2099-12-31 Thu 0\n"),
];

/// Neither a page nor an export, or a day that is none.
pub const REFUSALS: &[Command] = &[
    (&[], REFUSED),
    (&[b""], REFUSED),
    (&[b"", b""], REFUSED),
    (&[b"", b"skip"], REFUSED),
    (&[b"skip"], REFUSED),
    (&[b"last"], REFUSED),
    (&[b"skip", b"last"], REFUSED),
    // Without the word.
    (&[b"4822"], REFUSED),
    (&[b"0"], REFUSED),
    (&[b"43829"], REFUSED),
    (&[b"0004822"], REFUSED),
    (&[b"43830"], REFUSED),
    // Days that are none; 2^16, 2^32 and 2^64 more than 4,822.
    (&[b"43830", b"last"], REFUSED),
    (&[b"65535", b"last"], REFUSED),
    (&[b"65536", b"last"], REFUSED),
    (&[b"70358", b"last"], REFUSED),
    (&[b"4294972118", b"last"], REFUSED),
    (&[b"18446744073709556438", b"skip"], REFUSED),
    (&[b"48220", b"skip"], REFUSED),
    (&[b"99999999999999999999999999999999", b"last"], REFUSED),
    // No numbers.
    (&[b"+4822", b"last"], REFUSED),
    (&[b"-4822", b"last"], REFUSED),
    (&[b"-0", b"last"], REFUSED),
    (&[b" 4822", b"last"], REFUSED),
    (&[b"4822 ", b"last"], REFUSED),
    (&[b"4822\n", b"last"], REFUSED),
    (&[b"48 22", b"last"], REFUSED),
    (&[b"4,822", b"last"], REFUSED),
    (&[b"4_822", b"last"], REFUSED),
    (&[b"4822.0", b"skip"], REFUSED),
    (&[b"0x12D6", b"skip"], REFUSED),
    (&[b"4822u", b"skip"], REFUSED),
    (&[b"482/", b"skip"], REFUSED),
    (&[b"482:", b"skip"], REFUSED),
    (&[b"482\xB2", b"skip"], REFUSED),
    (&[b"\xFF", b"skip"], REFUSED),
    (&["\u{664}\u{668}\u{662}\u{662}".as_bytes(), b"skip"], REFUSED),
    // The word in the wrong place, more than once, not by itself, or spelt otherwise.
    (&[b"skip", b"4822"], REFUSED),
    (&[b"last", b"4822", b"skip"], REFUSED),
    (&[b"4822", b"skip", b"skip"], REFUSED),
    (&[b"4822", b"last", b"skip"], REFUSED),
    (&[b"4822", b"skip", b""], REFUSED),
    (&[b"4822", b""], REFUSED),
    (&[b"", b"4822"], REFUSED),
    (&[b"4822skip"], REFUSED),
    (&[b"4822 skip"], REFUSED),
    (&[b"4822", b"Skip"], REFUSED),
    (&[b"4822", b"LAST"], REFUSED),
    (&[b"4822", b"skip "], REFUSED),
    (&[b"4822", b"\nlast"], REFUSED),
    (&[b"4822", b"ski"], REFUSED),
    (&[b"4822", b"skips"], REFUSED),
    (&[b"4822", b"none"], REFUSED),
    (&[b"4822", b"--last"], REFUSED),
    (&[b"--", b"4822", b"last"], REFUSED),
    (&[b"-h"], REFUSED),
    // Too many numbers.
    (&[b"4822", b"1", b"1"], REFUSED),
    (&[b"4822", b"1", b"1", b"last"], REFUSED),
    (&[b"4822", b"4822", b"4822", b"4822", b"4822", b"skip"], REFUSED),
];

/// Exports with the day of the whole case, of 192 bytes.
pub const EXPORTS: &[&[&[u8]]] = &[
    &[b"4822", b"1", b"last"],
    &[b"4822", b"366", b"last"],
    &[b"4822", b"1", b"skip"],
    &[b"4800", b"30", b"last"],
    &[b"0004457", b"000000366", b"skip"],
];

/// Exports without it, of 64 bytes.
pub const EMPTY_EXPORTS: &[&[&[u8]]] = &[
    &[b"4822", b"0", b"last"],
    &[b"4823", b"366", b"skip"],
    &[b"0", b"0", b"skip"],
    &[b"0", b"366", b"last"],
    &[b"43829", b"0", b"skip"],
    &[b"43829", b"1", b"last"],
    &[b"43464", b"366", b"last"],
];

/// Without the word; spans that are none; and two words that are no numbers.
pub const EXPORT_REFUSALS: &[&[&[u8]]] = &[
    &[b"4822", b"1"],
    &[b"4822", b"366"],
    &[b"0", b"0"],
    &[b"0004457", b"000000366"],
    &[b"4822", b"367", b"last"],
    &[b"43830", b"0", b"last"],
    &[b"43829", b"2", b"skip"],
    &[b"43465", b"366", b"last"],
    // In two or four bytes they would be in range.
    &[b"4822", b"65537", b"last"],
    &[b"70358", b"1", b"last"],
    &[b"43829", b"21707", b"skip"],
    &[b"4822", b"4294967297", b"skip"],
    &[b"4294972118", b"1", b"skip"],
    &[b"4822", b"18446744073709551617", b"last"],
    &[b"4822", b"-1", b"last"],
    &[b"4822", b"+1", b"last"],
    &[b"4822", b"1.0", b"last"],
    &[b"4822", b" 1", b"last"],
    &[b"4822", b"", b"skip"],
    &[b"", b"1", b"skip"],
    &[b"4822", b"1", b"none"],
    &[b"4822", b"1", b"last", b"last"],
    &[b"4822", b"last", b"1"],
    &[b"skip", b"4822", b"1"],
];

/// To how many bytes the book is cut, and what is then written, whatever the command line is.
pub const CUT_BOOKS: &[(usize, &[u8])] =
    &[(0, b"2 0\n"), (4, b"2 0\n"), (5, b"3 5\n"), (11, b"3 5\n"), (12, b"4 12\n"), (32, b"4 30\n")];

/// What comes after the book, and what is then written, whatever the command line is.
pub const FILLED_BOOKS: &[(&[u8], &[u8])] = &[
    (&[0x1A; 128], b"9 33\n"),
    (&[0x1A; 65_502], b"9 33\n"),
    (&[0x1A; 65_503], b"1 0\n"),
    (&[0x1A, 0x00], b"9 34\n"),
    (&[0x1A, 0x0A], b"9 34\n"),
    (&[0x1B], b"9 33\n"),
    (&[0x1A, 0x1A, 0x1A, 0x32, 0x00, 0x00], b"9 36\n"),
];
