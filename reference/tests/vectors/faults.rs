//! What `run` is to find fault with, on the case of document 01.

use super::PLAIN;

const BOOK: &str = "ffff010001e0011e00010500010f00015d030f0258940205030000446570320000";
const ANSWER: &str = "ok 1 480 30 1 5 0";
/// On the 31st, at 0:00.
const MONTHLY: &str = "ffff010001e0011e00010500031000001f00005001010000c70c1f00000000320000";

fn run(text: &str) -> usize {
    run_of(7, text)
}

fn run_of(request: u16, text: &str) -> usize {
    super::run(text, request, &PLAIN)
}

fn read(lines: &str, answer: &str) -> usize {
    run(&format!("case a\ncall read\nbook {BOOK}\n{lines}answer {answer}\n"))
}

#[test]
fn none() {
    assert_eq!(read("", ANSWER), 1);
}

#[test]
#[should_panic(expected = "a: ok 1 480 30 1 5 0, not ok 1 480 30 1 5 1")]
fn a_wrong_answer() {
    read("", "ok 1 480 30 1 5 1");
}

#[test]
#[should_panic(expected = "a: unknown call reed")]
fn an_unknown_call() {
    run(&format!("case a\ncall reed\nbook {BOOK}\nanswer {ANSWER}\n"));
}

#[test]
#[should_panic(expected = "a: unknown keys [\"day\"]")]
fn an_unknown_key() {
    read("day 1\n", ANSWER);
}

#[test]
#[should_panic(expected = "a: a key twice")]
fn a_key_twice() {
    read(&format!("book {BOOK}\n"), ANSWER);
}

#[test]
#[should_panic(expected = "a: no day")]
fn a_key_that_is_missing() {
    run(&format!("case a\ncall print\nbook {BOOK}\nchoice last\nanswer ok -\n"));
}

#[test]
fn lists() {
    let lists = "previous 65535 0\nnext 1 65535\nkinds 0 2\nminutes 7 65535\n";
    assert_eq!(run(&format!("case a\ncall chains\ntable 5d030f0000000000ffff\n{lists}answer ok 1\n")), 1);
    let lists = "previous\nnext\nkinds\nminutes\n";
    assert_eq!(run(&format!("case a\ncall chains\ntable 000000ffff\n{lists}answer ok 0\n")), 1);
}

#[test]
#[should_panic(expected = "a: next is 65536")]
fn a_number_too_high() {
    run("case a\ncall chains\ntable -\nprevious 0\nnext 65536\nkinds 0\nminutes 0\nanswer refused 31 0\n");
}

#[test]
#[should_panic(expected = "a: kinds is ")]
fn two_spaces_in_a_list() {
    run("case a\ncall chains\ntable -\nprevious\nnext\nkinds 0  1\nminutes\nanswer refused 30 0\n");
}

#[test]
fn words() {
    let run = |args: &str, answer: &str| {
        run(&format!("case a\ncall program\nargs{args}\nbook {BOOK}\nanswer ok {answer}\n"))
    };
    assert_eq!(run(" 34383231 6c617374", "313939332d30332d31342053756e20300a"), 1);
    assert_eq!(run(" -", "313120300a"), 1);
    assert_eq!(run("", "313120300a"), 1);
}

#[test]
fn a_request_that_changes_the_answer() {
    assert_eq!(read("", "ok 1 480 30 1 5 0\nuntil 99"), 1);
    assert_eq!(read("", "something else\nuntil 3"), 0);
}

#[test]
#[should_panic(expected = "a: until is x")]
fn a_request_without_a_number() {
    read("", "ok 1 480 30 1 5 0\nuntil x");
}

#[test]
#[should_panic(expected = "a: ok 1 0:0:0:0:1:-, not ok 0")]
fn a_choice_that_is_not_named() {
    run(&format!("case a\ncall page\nbook {MONTHLY}\nday 4868\nchoice none\nanswer ok 0\n"));
}

/// On the day that a record of the 31st is moved to.
fn asked(call: &str, answer: &str) -> String {
    format!("case a\ncall {call}\nbook {MONTHLY}\nday 4868\nchoice last\nanswer {answer}\n")
}

/// As they are told before R-7, and from then on.
#[test]
fn moved() {
    for (call, before, after) in [
        ("falls\nrecord 0", "ok yes", "ok moved"),
        ("page", "ok 1 0:0:0:0:-", "ok 1 0:0:0:0:1:-"),
        ("line\nline 0", "ok 0:0:0:0:-", "ok 0:0:0:0:1:-"),
    ] {
        assert_eq!([run_of(3, &asked(call, before)), run_of(7, &asked(call, after))], [1, 1]);
    }
    assert_eq!(run(&asked("line\nline 1", "refused 10 0")), 1);
}

#[test]
#[should_panic(expected = "a: ok moved, not ok own")]
fn a_wrong_word_for_moved() {
    run(&asked("falls\nrecord 0", "ok own"));
}

#[test]
#[should_panic(expected = "a: ok moved, not ok month-too-short")]
fn a_wrong_reason() {
    assert_eq!(run(&asked("why\nrecord 0", "ok moved")), 1);
    assert_eq!(run(&asked("why\nrecord 1", "refused 10 0")), 1);
    run(&asked("why\nrecord 0", "ok month-too-short"));
}

#[test]
#[should_panic(expected = "a: ok 1 0:0:0:0:1:-, not ok 1 0:0:0:0:0:-")]
fn a_wrong_mark() {
    run(&asked("page", "ok 1 0:0:0:0:0:-"));
}

#[test]
#[should_panic(expected = "not a case")]
fn a_line_behind_the_answer() {
    read("", "ok 1 480 30 1 5 0\nneeded 1");
}

#[test]
#[should_panic(expected = "a name twice")]
fn a_name_twice() {
    let case = format!("case a\ncall read\nbook {BOOK}\nanswer {ANSWER}\n");
    run(&format!("{case}\n{case}"));
}
