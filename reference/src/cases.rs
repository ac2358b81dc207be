//! The open vectors: blocks of lines, each a key and its value, with a blank line between two blocks. The answer is a
//! block's last line, but for the request `until` which it holds. Bytes are lowercase hexadecimal digits, a hyphen for
//! none. A list has a space between two items; an empty one is the key alone.

use crate::pages::ShortMonth;
use std::collections::BTreeMap;

#[derive(Clone)]
pub struct Case<'a> {
    pub name: &'a str,
    pub call: &'a str,
    pub answer: &'a str,
    /// The request that changes the answer.
    pub until: Option<u16>,
    /// What else the question has, without what was taken.
    asked: BTreeMap<&'a str, &'a str>,
}

pub fn cases(text: &str) -> Vec<Case<'_>> {
    text.strip_suffix('\n').expect("a last line with an end").split("\n\n").map(Case::new).collect()
}

impl<'a> Case<'a> {
    fn new(block: &'a str) -> Self {
        let lines = block.split('\n').map(|line| line.split_once(' ').unwrap_or((line, "")));
        let lines: Vec<(&str, &str)> = lines.collect();
        let (until, lines) = match &lines[..] {
            [rest @ .., ("until", request)] => (Some(*request), rest),
            all => (None, all),
        };
        let [("case", name), ("call", call), rest @ .., ("answer", answer)] = lines else {
            panic!("not a case: {block:.300}")
        };
        let asked: BTreeMap<&str, &str> = rest.iter().copied().collect();
        assert_eq!(asked.len(), rest.len(), "{name}: a key twice");
        let mut case = Case { name, call, answer, until: None, asked };
        case.until = until.map(|request| case.parsed("until", request));
        case
    }

    fn take(&mut self, key: &str) -> &'a str {
        self.asked.remove(key).unwrap_or_else(|| panic!("{}: no {key}", self.name))
    }

    pub fn bytes(&mut self, key: &str) -> Vec<u8> {
        let word = self.take(key);
        self.decoded(key, word)
    }

    fn decoded(&self, key: &str, word: &str) -> Vec<u8> {
        bytes(word).unwrap_or_else(|| panic!("{}: {key} is {word:.80}", self.name))
    }

    pub fn number(&mut self, key: &str) -> u16 {
        let word = self.take(key);
        self.parsed(key, word)
    }

    pub fn list(&mut self, key: &str) -> Vec<u16> {
        self.items(key).into_iter().map(|word| self.parsed(key, word)).collect()
    }

    /// A list whose items are bytes.
    pub fn words(&mut self, key: &str) -> Vec<Vec<u8>> {
        self.items(key).into_iter().map(|word| self.decoded(key, word)).collect()
    }

    fn items(&mut self, key: &str) -> Vec<&'a str> {
        match self.take(key) {
            "" => vec![],
            items => items.split(' ').collect(),
        }
    }

    fn parsed(&self, key: &str, word: &str) -> u16 {
        word.parse().unwrap_or_else(|e| panic!("{}: {key} is {word:.80}, {e}", self.name))
    }

    /// The choice, or that of a caller who names none.
    pub fn choice(&mut self, none: ShortMonth) -> ShortMonth {
        match self.take("choice") {
            "skip" => ShortMonth::Skip,
            "last" => ShortMonth::Last,
            "none" => none,
            word => panic!("{}: choice {word}", self.name),
        }
    }

    /// Nothing of the question may be left.
    pub fn end(self) {
        let keys: Vec<&str> = self.asked.into_keys().collect();
        assert!(keys.is_empty(), "{}: unknown keys {keys:?}", self.name);
    }
}

fn bytes(word: &str) -> Option<Vec<u8>> {
    let digit = |digit: u8| match digit {
        b'0'..=b'9' => Some(digit - b'0'),
        b'a'..=b'f' => Some(digit - b'a' + 10),
        _ => None,
    };
    match word {
        "-" => Some(vec![]),
        "" => None,
        _ => word
            .as_bytes()
            .chunks(2)
            .map(|pair| match *pair {
                [high, low] => Some(16 * digit(high)? + digit(low)?),
                _ => None,
            })
            .collect(),
    }
}

/// As they stand in an answer.
pub fn word(bytes: &[u8]) -> String {
    if bytes.is_empty() {
        return "-".into();
    }
    bytes.iter().map(|byte| format!("{byte:02x}")).collect()
}
