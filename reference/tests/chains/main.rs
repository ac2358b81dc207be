//! The proved judgement of day chains against the plain one: every field of every answer, refusals too.

mod by_hand;
mod random;

use apptbook::raw::chains as proved;
use apptbook::raw::pages::CountAnswer;
use reference::answers::IntoAnswer;
use reference::chains::{self as plain, NONE};
use reference::day_chains::DayChains;
use reference::refusal::Refusal;

const AROUND: usize = 8;

fn amid<T: Copy>(items: &[T], others: T) -> Vec<T> {
    [&[others; AROUND][..], items, &[others; AROUND]].concat()
}

fn midst<T>(items: &[T]) -> &[T] {
    &items[AROUND..items.len() - AROUND]
}

/// By the library. Table and arrays are lent in the midst of numbers that would go on with them, as a last entry and as
/// records that are right: heads, or what follows the record whose next is one too high. None may be changed.
fn judged(lent: &DayChains) -> CountAnswer {
    let before = lent.next.iter().position(|&next| usize::from(next) == lent.next.len());
    let all = DayChains {
        table: amid(&lent.table, 0xFF),
        previous: amid(&lent.previous, before.map_or(NONE, |record| record as u16)),
        next: amid(&lent.next, NONE),
        kinds: amid(&lent.kinds, 0),
        minutes: amid(&lent.minutes, 0),
    };
    let before = all.clone();
    let answer = all.lent_to(|table, previous, next, kinds, minutes| {
        proved::check_chains(midst(table), midst(previous), midst(next), midst(kinds), midst(minutes))
    });
    assert!(all == before, "changed: {lent:?}");
    answer
}

/// Gives the reference's answer.
fn compare(lent: &DayChains, name: &str) -> Result<usize, Refusal> {
    let answer = lent.lent_to(plain::check_chains);
    let show = || if lent.next.len() < 100 { format!("{name}: {lent:?}") } else { name.to_string() };
    assert_eq!(judged(lent), answer.answer(), "{}", show());
    answer
}
