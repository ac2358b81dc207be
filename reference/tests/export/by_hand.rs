//! Exports written out by hand, and edges.

use super::{compare, is_exported, is_refused, shows_the_pages};
use reference::books::{crowded, Span, CROWDED_SPAN};
use reference::calendar::LONGEST;
use reference::pages::ShortMonth::{Last, Skip};
use reference::pages::CHOICES;
use reference::refusal::{Refusal, NO_ROOM, OUT_OF_RANGE, TOO_MANY_BLOCKS};
use reference::vectors::exports::{self, Exported, SPANS};
use reference::vectors::{every_kind, WHOLE_CASE};

#[test]
fn exports_by_hand() {
    for Exported { book, first, count, choice, file } in exports::all() {
        let span = Span { first, count };
        println!("{span:?} {choice:?} {book:?}");
        is_exported(&book, span, choice, &file);
        shows_the_pages(&book, span, choice, &file, 1);
    }
}

#[test]
fn spans_in_range() {
    for &(first, count, in_range) in SPANS {
        let span = Span { first, count };
        for choice in CHOICES {
            for book in [&WHOLE_CASE[..], &every_kind()] {
                assert_eq!(compare(book, span, choice, 100_000).is_some(), in_range, "{span:?}");
            }
            is_refused(&WHOLE_CASE, span, choice, 0, if in_range { NO_ROOM } else { OUT_OF_RANGE });
            is_refused(&WHOLE_CASE[..30], span, choice, 0, Refusal { number: 4, place: 30 });
            is_refused(&[], span, choice, 100, Refusal { number: 2, place: 0 });
        }
    }
}

/// The last block begins at block 32,767, and then one later. 13 comes before 12 and after 11.
#[test]
fn too_many_blocks() {
    let most = crowded(1_257, 40).bytes;
    let file = compare(&most, CROWDED_SPAN, Skip, LONGEST).expect("room");
    assert_eq!(file.len(), 2_137_344);
    shows_the_pages(&most, CROWDED_SPAN, Skip, &file, 91);
    is_refused(&most, CROWDED_SPAN, Last, 2_137_343, NO_ROOM);
    for book in [crowded(1_257, 41).bytes, crowded(1_400, 0).bytes] {
        for room in [0, 64, 65_536, LONGEST] {
            is_refused(&book, CROWDED_SPAN, Skip, room, TOO_MANY_BLOCKS);
            is_refused(&book, Span { count: 367, ..CROWDED_SPAN }, Skip, room, OUT_OF_RANGE);
            is_refused(
                &book[..book.len() - 1],
                CROWDED_SPAN,
                Skip,
                room,
                Refusal { number: 4, place: book.len() - 3 },
            );
        }
        // A few days less, and it fits.
        assert!(compare(&book, Span { count: 200, ..CROWDED_SPAN }, Skip, LONGEST).is_some());
    }
}
