//! Faults, each with the number that it is refused with.

use super::drafts::{full_note, letters, low_first, places, text_at, Draft, Field};
use super::drafts::{Field::*, EDGES, SETTINGS};
use super::file::File;
use super::fillers;
use crate::book::LONGEST;
use crate::rng::Rng;

/// Changes a record so that it is refused with `number`, or is still accepted (0).
pub struct Change {
    pub name: String,
    pub number: u32,
    edit: Edit,
}

#[derive(Clone, Copy)]
enum Edit {
    Put(Field, &'static [u8]),
    With(fn(&mut Draft, &mut Rng)),
}

impl Change {
    pub fn fits(&self, kind: u8) -> bool {
        match self.edit {
            Edit::Put(field, _) => !places(kind, field).is_empty(),
            Edit::With(_) => true,
        }
    }

    pub fn apply(&self, draft: &mut Draft, rng: &mut Rng) {
        match self.edit {
            Edit::Put(field, value) => draft.put(field, value),
            Edit::With(edit) => edit(draft, rng),
        }
    }
}

/// Every edge, and then what is about lengths, texts and notes.
pub fn changes() -> Vec<Change> {
    let put = |field: Field, number, value: &'static [u8]| {
        let name = format!("{field:?} {value:?}");
        Change { name, number, edit: Edit::Put(field, value) }
    };
    let edges = EDGES
        .iter()
        .flat_map(|&(field, number, values)| values.iter().map(move |&value| put(field, number, value)));
    let edits = EDITS.iter().map(|&(name, number, edit)| {
        let name = name.to_string();
        Change { name, number, edit: Edit::With(edit) }
    });
    edges.chain(edits).collect()
}

type NamedEdit = (&'static str, u32, fn(&mut Draft, &mut Rng));

const EDITS: &[NamedEdit] = &[
    ("no text", 0, |draft, _| draft.text.clear()),
    ("text of 27", 0, |draft, rng| draft.text = letters(27, rng)),
    ("no note", 0, |draft, _| draft.note.clear()),
    ("note of 440", 0, |draft, rng| draft.note = full_note(rng)),
    ("note of 439, no zero at the end", 0, |draft, rng| draft.note = full_note(rng)[..439].to_vec()),
    ("line of 39", 0, |draft, rng| draft.note = letters(39, rng)),
    ("11 empty lines", 0, |draft, _| draft.note = vec![0; 11]),
    ("10 empty lines and one byte", 0, |draft, _| draft.note = [vec![0; 10], vec![9]].concat()),
    ("L exact", 0, |draft, _| draft.padding.clear()),
    ("a note that is padding", 0, |draft, _| draft.put(NoteLength, [0, 0])),
    ("L one below the fixed bytes", 6, |draft, _| draft.put(Length, low_first(text_at(draft.kind) - 4))),
    ("L one short", 6, |draft, _| {
        draft.padding.clear();
        draft.put(Length, low_first(text_at(draft.kind) - 4 + draft.text.len() + draft.note.len()));
    }),
    ("text of 28", 6, |draft, rng| draft.text = letters(28, rng)),
    ("text of 255", 6, |draft, rng| draft.text = letters(255, rng)),
    ("text one past L", 6, |draft, rng| {
        *draft = Draft { text: letters(5, rng), note: vec![], padding: vec![], ..draft.clone() };
        draft.put(TextLength, [6]);
    }),
    ("note one past L", 6, |draft, _| {
        draft.put(NoteLength, low_first(draft.note.len() + draft.padding.len() + 1));
    }),
    ("note of 441 past L", 6, |draft, rng| {
        *draft = Draft { note: vec![], padding: rng.bytes(440), ..draft.clone() };
        draft.put(NoteLength, low_first(441));
    }),
    // In two bytes, fixed bytes and text and note would come to less than L.
    ("a sum over 65,535", 6, |draft, rng| {
        *draft = Draft { text: letters(27, rng), padding: rng.bytes(300), ..draft.clone() };
        draft.put(NoteLength, [255, 255]);
    }),
    ("text that begins with a zero", 8, |draft, rng| draft.text = [vec![0], letters(3, rng)].concat()),
    ("text that ends with a zero", 8, |draft, rng| draft.text = [letters(26, rng), vec![0]].concat()),
    ("text of a zero", 8, |draft, _| draft.text = vec![0]),
    ("note of 441", 8, |draft, rng| draft.note = [full_note(rng), letters(1, rng)].concat()),
    ("note of 441 without a zero", 8, |draft, rng| draft.note = letters(441, rng)),
    ("note of 440 without a zero", 8, |draft, rng| draft.note = letters(440, rng)),
    ("note of 441 zeros", 8, |draft, _| draft.note = vec![0; 441]),
    ("note of 30,000", 8, |draft, _| draft.note = vec![7; 30_000]),
    ("line of 40", 8, |draft, rng| draft.note = letters(40, rng)),
    ("first line of 40", 8, |draft, rng| draft.note = [letters(40, rng), vec![0, 7, 0]].concat()),
    ("last line of 40", 8, |draft, rng| draft.note = [vec![0; 10], letters(40, rng)].concat()),
    ("12 empty lines", 8, |draft, _| draft.note = vec![0; 12]),
    ("11 empty lines and one byte", 8, |draft, _| draft.note = [vec![0; 11], vec![9]].concat()),
];

/// Damages a right file with at least one record: gives the place that it is then refused with.
type Damage = (&'static str, u32, fn(&mut File, &mut Rng) -> usize);

pub const DAMAGES: &[Damage] = &[
    ("65,536 bytes", 1, |file, _| {
        file.bytes.resize(LONGEST + 1, 0);
        0
    }),
    ("more bytes", 1, |file, rng| {
        file.bytes.resize(rng.within(LONGEST + 1..=3 * LONGEST), 50);
        0
    }),
    ("fillers up to 65,536", 1, fillers::past_the_greatest_size),
    ("identification", 2, |file, rng| {
        file.bytes[rng.within(0..=4)] ^= rng.within(1..=255) as u8;
        0
    }),
    ("nothing", 2, |file, _| {
        file.bytes.clear();
        0
    }),
    ("cut in the identification", 2, |file, rng| {
        file.bytes.truncate(rng.within(0..=4));
        0
    }),
    ("settings", 3, |file, rng| {
        let bad: Vec<_> = SETTINGS.iter().filter(|setting| setting.1 == 3).collect();
        let &(at, _, values) = rng.pick(&bad);
        file.put(at, rng.pick(values));
        5
    }),
    ("cut in the settings", 3, |file, rng| {
        file.bytes.truncate(rng.within(5..=11));
        5
    }),
    ("cut in a record", 4, |file, rng| {
        let number = rng.within(0..=file.places.len() - 2);
        let place = file.places[number];
        file.bytes.truncate(rng.within(place..=file.places[number + 1] - 1));
        place
    }),
    ("cut in the end record", 4, |file, rng| {
        let place = file.end();
        file.bytes.truncate(rng.within(place..=place + 2));
        place
    }),
    ("one or two fillers, no end record", 4, |file, rng| fillers::no_end_record(file, rng.within(1..=2))),
    ("last record over the end record", 4, |file, rng| {
        fillers::end_record_in_the_last(file, rng.within(0..=2))
    }),
    ("last record over a part of the end record", 4, |file, rng| {
        let more = rng.within(1..=2);
        file.fill(0);
        lengthen_last_record(file, more);
        file.end() + more
    }),
    ("last record one past the file", 4, |file, _| {
        lengthen_last_record(file, file.bytes.len() - file.end() + 1);
        file.last_record()
    }),
    ("fillers, no end record", 5, |file, rng| fillers::no_end_record(file, rng.within(3..=200))),
    ("last record over the end record, fillers", 5, |file, rng| {
        fillers::end_record_in_the_last(file, rng.within(3..=200))
    }),
    ("end record with a length", 5, |file, rng| {
        let length = low_first(rng.pick(&[1, 2, 256, 32_768, 65_535]));
        let place = file.end();
        file.put(place + 1, &length);
        place
    }),
    ("end record of a type unknown", 5, |file, rng| {
        let place = file.end();
        file.bytes[place] = rng.pick(&[0, 7, 49, 51, 255]);
        place
    }),
    ("end record of a type 1 to 6", 6, |file, rng| {
        let place = file.end();
        file.bytes[place] = rng.within(1..=6) as u8;
        place
    }),
    ("other bytes after the end", 9, fillers::other_bytes),
    ("a wrong byte among fillers", 9, fillers::one_wrong),
    ("wrong bytes among fillers", 9, fillers::several_wrong),
    ("another end record", 9, fillers::another_end_record),
    ("128 fillers", 9, fillers::one_too_many),
    ("more fillers", 9, fillers::too_many),
    ("more fillers, one wrong", 9, fillers::too_many_and_one_wrong),
    ("fillers up to 65,535", 9, fillers::to_the_greatest_size),
];

pub fn lengthen_last_record(file: &mut File, by: usize) {
    let at = file.last_record();
    let length = file.end() - at - 3;
    file.put(at + 1, &low_first(length + by));
}
