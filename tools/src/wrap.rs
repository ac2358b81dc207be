//! Text filled to lines of at most 120 columns.

const COLUMNS: usize = 120;

/// Whether a line that began with this word would be an item of a list, a heading or a quotation.
fn marks(word: &str) -> bool {
    let number = word.trim_end_matches(['.', ')']);
    let numbered = number.len() < word.len() && number.chars().all(|letter| letter.is_ascii_digit());
    numbered || ["-", "*", "+", ">", "|"].contains(&word) || word.chars().all(|letter| letter == '#')
}

/// Words that stay together: code in backquotes, and what could not begin a line.
fn words(text: &str) -> Vec<String> {
    let mut words: Vec<String> = vec![];
    let mut in_code = false;
    for word in text.split_whitespace() {
        match words.last_mut() {
            Some(last) if in_code || marks(word) => *last += &format!(" {word}"),
            _ => words.push(word.into()),
        }
        in_code ^= word.matches('`').count() % 2 == 1;
    }
    words
}

/// A paragraph, or with a mark an item of a list.
pub fn filled(mark: &str, text: &str) -> String {
    let indent = " ".repeat(mark.len());
    let mut lines = vec![];
    let mut line = mark.to_owned();
    for word in words(text) {
        let blank = line == mark || line == indent;
        if !blank && line.chars().count() + 1 + word.chars().count() > COLUMNS {
            lines.push(std::mem::replace(&mut line, indent.clone()));
            line += &word;
        } else {
            line += if blank { "" } else { " " };
            line += &word;
        }
    }
    lines.push(line);
    lines.join("\n") + "\n"
}
