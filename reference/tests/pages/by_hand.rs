//! Books, pages and searches written out by hand.

use super::{compare_page, compare_record, count, found, is_refused, is_refused_day, none, prints};
use apptbook::raw::pages::{self as proved, FallsAnswer, PageLineAnswer};
use reference::answers::IntoAnswer;
use reference::books::{small, Field, File};
use reference::pages::ShortMonth::{Last, Skip};
use reference::pages::CHOICES;
use reference::refusal::{Refusal, NO_SUCH_NUMBER, OUT_OF_RANGE};
use reference::rng::Rng;
use reference::vectors::pages::{self, Shown};
use reference::vectors::{every_kind, WHOLE_CASE};

#[test]
fn the_whole_case() {
    let file = &WHOLE_CASE;
    assert_eq!(proved::page_lines(file, 4_822, Skip), count(1));
    let line = PageLineAnswer {
        number: 0,
        place: 0,
        record: 0,
        text_at: 27,
        text_length: 3,
        start: 600,
        end: 660,
        alarm: true,
        moved: false,
    };
    assert_eq!(proved::page_line(file, 4_822, Skip, 0), line);
    assert_eq!(proved::page_line(file, 4_822, Skip, 1), PageLineAnswer { number: 10, ..Default::default() });
    assert_eq!(proved::falls_on(file, 0, 4_822, Skip), FallsAnswer { number: 0, place: 0, falls: 1 });
    assert_eq!(proved::falls_on(file, 0, 4_821, Last), FallsAnswer { number: 0, place: 0, falls: 0 });
    assert_eq!(proved::next_occurrence(file, 0, 0, Skip), found(4_822, 4_823));
    assert_eq!(proved::next_occurrence(file, 0, 4_822, Skip), found(4_822, 1));
    assert_eq!(proved::next_occurrence(file, 0, 4_823, Skip), none(39_007));
    assert_eq!(proved::next_occurrence(file, 0, 43_829, Skip), none(1));
    are_shown(pages::whole_case());
}

pub fn are_shown(all: Vec<Shown>) {
    for Shown { book, day, choice, page } in all {
        println!("page of {day}, {choice:?}, of {book:?}");
        prints(&book, day, choice, page);
        compare_page(&book, day, choice, |_| true);
    }
}

/// Document 01, "Slips that look right".
mod slips {
    use super::*;

    #[test]
    fn week_5_is_not_last() {
        are_shown(pages::week_5());
    }

    #[test]
    fn equal_minutes_keep_book_order() {
        are_shown(pages::equal_minutes());
    }

    #[test]
    fn padding_never_shows() {
        are_shown(pages::padding());
    }
}

#[test]
fn short_months() {
    are_shown(pages::short_months());
}

/// A book of one record with these values.
pub fn single(kind: u8, values: &[(Field, &[u8])]) -> Vec<u8> {
    let mut draft = small(kind, &mut Rng::new(1));
    for (field, value) in values {
        draft.put(*field, value);
    }
    File::new([0, 0, 1, 0, 0, 0, 0], &[draft]).bytes
}

/// Set P of document 01, as far as it is about records.
#[test]
fn set_p() {
    const MARCH: (Field, &[u8]) = (Field::Dates, &[93, 3, 1, 93, 3, 31]);
    let second_tuesday = single(4, &[(Field::Week, &[2]), (Field::Weekday, &[3]), MARCH]);
    let fifth_monday = single(4, &[(Field::Week, &[5]), (Field::Weekday, &[2]), MARCH]);
    let tuesdays = single(2, &[(Field::Weekday, &[3]), (Field::Dates, &[80, 1, 1, 199, 12, 31])]);
    for choice in CHOICES {
        assert_eq!(proved::next_occurrence(&second_tuesday, 0, 4_816, choice), found(4_816, 1));
        assert_eq!(proved::next_occurrence(&second_tuesday, 0, 0, choice), found(4_816, 4_817));
        assert_eq!(proved::next_occurrence(&second_tuesday, 0, 4_817, choice), none(39_013));
        assert_eq!(proved::next_occurrence(&fifth_monday, 0, 0, choice), found(4_836, 4_837));
        assert_eq!(proved::next_occurrence(&tuesdays, 0, 4_822, choice), found(4_823, 2));
    }
    let on_31 = single(3, &[(Field::Day, &[31]), (Field::Dates, &[93, 4, 1, 93, 4, 30])]);
    assert_eq!(proved::next_occurrence(&on_31, 0, 0, Skip), none(43_830));
    assert_eq!(proved::next_occurrence(&on_31, 0, 0, Last), found(4_868, 4_869));
    let leap_day = single(5, &[(Field::MonthAndDay, &[2, 29]), (Field::Dates, &[93, 1, 1, 93, 12, 31])]);
    assert_eq!(proved::next_occurrence(&leap_day, 0, 0, Skip), none(43_830));
    assert_eq!(proved::next_occurrence(&leap_day, 0, 0, Last), found(4_807, 4_808));
}

/// The book's own, then 11, then 10, then 12.
#[test]
fn refusals_in_order() {
    for day in [43_830, 43_831, 50_000, 65_535] {
        is_refused_day(&WHOLE_CASE, day, OUT_OF_RANGE);
        is_refused_day(&WHOLE_CASE[..30], day, Refusal { number: 4, place: 30 });
        is_refused_day(&[], day, Refusal { number: 2, place: 0 });
    }
    for day in [0, 4_822, 43_829] {
        is_refused_day(&WHOLE_CASE[..30], day, Refusal { number: 4, place: 30 });
        is_refused(&WHOLE_CASE, 1, day, NO_SUCH_NUMBER);
        is_refused(&WHOLE_CASE, usize::MAX, day, NO_SUCH_NUMBER);
    }
    assert_eq!(proved::page_line(&WHOLE_CASE, 4_821, Skip, 0), Err(NO_SUCH_NUMBER).answer());
}

#[test]
fn every_kind_by_hand() {
    let file = every_kind();
    // 1 January 1980, 16 March 1993, 29 February 2000, the fifth Sunday of May 1993, 29 February 1992 and
    // 28 February 1993.
    for (day, choice, lines) in [
        (0, Skip, 1),
        (4_823, Skip, 1),
        (7_364, Skip, 1),
        (7_364, Last, 2),
        (4_898, Skip, 1),
        (4_442, Skip, 1),
        (4_807, Skip, 0),
        (4_807, Last, 1),
    ] {
        assert_eq!(proved::page_lines(&file, day, choice), count(lines), "{day} {choice:?}");
        compare_page(&file, day, choice, |_| true);
    }
    for record in 0..=7 {
        for day in [0, 4_442, 4_806, 4_807, 4_808, 4_822, 4_823, 7_364, 43_823, 43_829] {
            for choice in CHOICES {
                compare_record(&file, record, day, choice);
            }
        }
    }
}
