//! Document 02, R-7: no, on its own day, or moved.

use super::by_hand::{are_shown, single};
use super::{compare_page, count, prints};
use apptbook::raw::pages::{self as proved, FallsAnswer};
use reference::answers::IntoAnswer;
use reference::books::Field;
use reference::days::{day_of_date, month_length, Date};
use reference::occurrences::occurrences;
use reference::pages::ShortMonth::{Last, Skip};
use reference::pages::{self as plain, Falls, CHOICES};
use reference::vectors::single::Asked;
use reference::vectors::{moved, pages};
use reference::{book, civil};

#[test]
fn pages_by_hand() {
    are_shown(pages::moved());
}

/// The number of each answer.
const NUMBERS: [(Falls, u16); 3] = [(Falls::Not, 0), (Falls::OnItsDay, 1), (Falls::Moved, 2)];

#[test]
fn answers_by_hand() {
    for Asked { book, day, answers } in moved::all() {
        for (choice, falls) in CHOICES.into_iter().zip(answers) {
            let show = format!("{day} {choice:?} {book:?}");
            let number = NUMBERS.iter().find(|pair| pair.0 == falls).expect("an answer").1;
            let expected = FallsAnswer { number: 0, place: 0, falls: number };
            assert_eq!(proved::falls_on(&book, 0, day, choice), expected, "{show}");
            assert_eq!(proved::page_lines(&book, day, choice), count(usize::from(number > 0)), "{show}");
            assert_eq!(proved::page_line(&book, day, choice, 0).moved, number == 2, "{show}");
            let next = proved::next_occurrence(&book, 0, day, choice);
            assert_eq!(next.found && next.day == day, number > 0, "{show}");
        }
    }
}

/// Nothing but moved lines: as many as a page can have, and as many bytes.
#[test]
fn full_pages() {
    for (book, page) in moved::full_pages() {
        prints(&book, 4_868, Last, &page);
        let lines = compare_page(&book, 4_868, Last, |line| line % 97 == 0);
        assert!(lines.iter().all(|line| line.moved));
        prints(&book, 4_868, Skip, b"1993-04-30 Fri 0\n");
    }
}

const YEARS: [u16; 6] = [1980, 1992, 1993, 2000, 2096, 2099];

/// Each day of these years, or of the month of a yearly record: the library, the reference and the third way.
/// Counts the three answers.
fn compare_days(file: &[u8], month: Option<u16>, counts: &mut [usize; 3]) {
    let entry = book::record(file, 0).expect("a record").entry;
    for choice in CHOICES {
        let showings = occurrences(&entry, choice);
        let months = YEARS.into_iter().flat_map(|year| (1..=12).map(move |month| (year, month)));
        for (year, month) in months.filter(|&(_, of)| month.is_none_or(|month| of == month)) {
            let first = civil::day_of_date(Date { year, month, day: 1 }).expect("a real date");
            let last = first + month_length(year, month).expect("a month") - 1;
            for day in first..=last {
                let falls = plain::falls_on(file, 0, day, choice);
                let answer = proved::falls_on(file, 0, day, choice);
                assert_eq!(answer, falls.answer(), "{day} {choice:?} {file:?}");
                let third = match showings.binary_search_by_key(&day, |showing| showing.day) {
                    Ok(at) => 1 + u16::from(showings[at].moved),
                    Err(_) => 0,
                };
                assert_eq!(answer.falls, third, "{day} {choice:?} {file:?}");
                counts[usize::from(third)] += 1;
            }
            compare_page(file, last, choice, |_| true);
        }
    }
}

/// Every day that a monthly or yearly record can want, in years of both lengths and at the edges.
#[test]
fn every_wanted_day() {
    const ALL: (Field, &[u8]) = (Field::Dates, &[80, 1, 1, 199, 12, 31]);
    let mut counts = [0; 3];
    for day in 1..=31 {
        compare_days(&single(3, &[(Field::Day, &[day]), ALL]), None, &mut counts);
    }
    for (month, day) in (1..=12).flat_map(|month| (1..=31).map(move |day| (month, day))) {
        if day_of_date(Date { year: 2000, month, day }).is_ok() {
            let wanted: &[u8] = &[month as u8, day as u8];
            compare_days(&single(5, &[(Field::MonthAndDay, wanted), ALL]), Some(month), &mut counts);
        }
    }
    // Four of the years have 366 days and two have 365: so often monthly records have their day, and so often yearly
    // ones, under either choice. Moved under last: the 31st four times a year, in February 30 and 31, and in two of
    // the years 29, this one by yearly records as well.
    assert_eq!(counts[1..], [(4 * 366 + 2 * 365) * 2 * 2, 6 * (4 + 2) + 2 + 2]);
}
