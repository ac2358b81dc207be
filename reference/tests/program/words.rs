//! Command lines: of every shape, made at random, with long words, with many words.

use super::{compare, run};
use reference::books::{book_near, edge_day, Cases};
use reference::rng::Rng;
use reference::vectors::calendars;
use reference::vectors::commands::PAGES;
use reference::vectors::WHOLE_CASE;

const REFUSED: &[u8] = b"11 0\n";

/// Two numbers, the word in both forms, and what is neither.
const WORDS: [&str; 5] = ["4822", "1", "skip", "last", "Last"];

/// All command lines of so many of them.
fn lines(count: usize) -> Vec<Vec<&'static str>> {
    match count {
        0 => vec![vec![]],
        _ => lines(count - 1)
            .into_iter()
            .flat_map(|line| WORDS.map(|word| [&line[..], &[word]].concat()))
            .collect(),
    }
}

/// What the line asks for of the whole case, by hand: without the word it is 11, whatever else is there.
fn asked(line: &[&str]) -> Vec<u8> {
    match line {
        ["4822", "skip" | "last"] => PAGES[0].1.to_vec(),
        ["1", "skip" | "last"] => b"1980-01-02 Wed 0\n".to_vec(),
        ["4822", "1", "skip" | "last"] => calendars::whole_case(),
        ["1", "1", "skip" | "last"] => calendars::empty(),
        _ => REFUSED.to_vec(),
    }
}

/// Up to four words; of a book that is cut short they all get the book's own refusal.
#[test]
fn every_shape() {
    let all: Vec<_> = (0..=4).flat_map(lines).collect();
    assert_eq!(all.len(), 1 + 5 + 25 + 125 + 625);
    let mut answered = 0;
    for line in all {
        let words: Vec<Vec<u8>> = line.iter().map(|word| word.as_bytes().to_vec()).collect();
        let expected = asked(&line);
        assert!(run(&words, &WHOLE_CASE) == expected, "{line:?}");
        assert_eq!(run(&words, &WHOLE_CASE[..32]), b"4 30\n", "{line:?}");
        answered += usize::from(expected != REFUSED);
    }
    assert_eq!(answered, 8);
}

/// A word of a command line that may be right: most often the day.
fn random_word(day: u16, rng: &mut Rng) -> Vec<u8> {
    let number = match rng.below(8) {
        0 => rng.u16().into(),
        1 => rng.u64(),
        2 => u64::from(day) + (1 << rng.pick(&[16, 32])),
        3 => rng.pick(&[0, 1, 366, 367, 43_829, 43_830]),
        _ => day.into(),
    };
    let zeros = if rng.one_in(4) { rng.within(1..=30) } else { 0 };
    let mut word = [vec![b'0'; zeros], number.to_string().into_bytes()].concat();
    if rng.one_in(12) {
        let at = rng.within(0..=word.len() - 1);
        word[at] = rng.within(1..=255) as u8;
    }
    if rng.one_in(20) {
        word.clear();
    }
    word
}

fn random_words(day: u16, rng: &mut Rng) -> Vec<Vec<u8>> {
    let numbers = rng.pick(&[1, 1, 1, 1, 2, 3, 0]);
    let mut words: Vec<_> = (0..numbers).map(|_| random_word(day, rng)).collect();
    // Most often the word, once.
    for _ in 0..rng.pick(&[0, 1, 1, 1, 1, 1, 1, 2]) {
        let at = if rng.one_in(8) { rng.within(0..=words.len()) } else { words.len() };
        words.insert(at, rng.pick(&["skip", "last"]).into());
    }
    words
}

#[test]
fn random_commands_and_books() {
    let mut rng = Rng::for_test("random_commands_and_books");
    let mut cases = Cases::new(Rng::new(rng.u64()));
    let (mut pages, mut refused) = (0, 0);
    for number in 0..2_500 {
        let day = edge_day(&mut rng);
        let file = match number % 4 {
            0 => cases.next().expect("a case").file,
            _ => book_near(day, rng.within(0..=12), &mut rng).bytes,
        };
        let written = compare(&random_words(day, &mut rng), &file);
        *if written.contains(&b'-') { &mut pages } else { &mut refused } += 1;
    }
    println!("{pages} pages, {refused} refused");
    assert!(pages >= 450 && refused >= 500);
}

/// Up to 131,071 bytes, the longest that Linux hands over.
#[test]
fn long_words() {
    let page = |words: &[Vec<u8>]| assert_eq!(compare(words, &WHOLE_CASE), PAGES[0].1);
    let refused = |words: &[Vec<u8>]| assert_eq!(compare(words, &WHOLE_CASE), REFUSED);
    for length in [64, 255, 256, 4_095, 4_096, 65_535, 65_536, 65_540, 131_070, 131_071] {
        let zeros = vec![b'0'; length - 4];
        let number = [&zeros[..], b"4822"].concat();
        page(&[number.clone(), b"skip".to_vec()]);
        page(&[number.clone(), b"last".to_vec()]);
        for wrong in [
            [&zeros[..], b"482x"].concat(),
            [b"x", &zeros[..], b"482"].concat(),
            [b"4822", &zeros[..]].concat(),
            vec![b'9'; length],
        ] {
            refused(&[wrong, b"last".to_vec()]);
        }
        refused(&[b"4822".to_vec(), [b"skip", &zeros[..]].concat()]);
        refused(&[b"4822".to_vec(), vec![b'l'; length]]);
        refused(&vec![number; 4]);
    }
}

#[test]
fn many_words() {
    for count in [3, 10, 1_000, 20_000] {
        for word in ["", "0", "4822", "skip", "last"] {
            assert_eq!(compare(&vec![word.into(); count], &WHOLE_CASE), REFUSED, "{count} times {word:?}");
        }
    }
    assert_eq!(compare(&vec![vec![b'0'; 131_071]; 12], &WHOLE_CASE), REFUSED);
}
