//! Books made at random, right ones and damaged ones, with the answer where it is known beforehand.

mod damage;
mod drafts;
mod edges;
mod file;
mod fillers;
mod near;
mod spans;

use crate::book::{IDENTIFICATION, LONGEST};
use crate::rng::Rng;
pub use damage::{changes, Change, DAMAGES};
use drafts::low_first;
pub use drafts::{full_note, letters, Draft, Field, SETTINGS};
pub use edges::edge_notes;
pub use file::File;
pub use fillers::FILLER;
pub use near::{any_entry, book_near, edge_day, near};
pub use spans::{book_of_span, crowded, Span, CROWDED_SPAN};

pub struct Case {
    pub name: String,
    pub file: Vec<u8>,
    /// The refusal's number and place where they are known beforehand; 0 and 0: accepted.
    pub answer: Option<(u32, usize)>,
}

/// Right and damaged books in turn, without an end.
pub struct Cases {
    rng: Rng,
    changes: Vec<Change>,
}

impl Iterator for Cases {
    type Item = Case;

    fn next(&mut self) -> Option<Case> {
        Some(match self.rng.below(1_000) {
            0..2 => self.full(),
            2..4 => self.overfilled(),
            4..200 => self.right(),
            200..450 => self.changed(),
            450..570 => self.changed_often(),
            570..670 => self.damaged(),
            670..750 => self.damaged_often(),
            750..850 => self.lying(),
            850..950 => self.scratched(),
            _ => self.anything(),
        })
    }
}

impl Cases {
    pub fn new(rng: Rng) -> Self {
        Cases { rng, changes: changes() }
    }

    fn records(&mut self, least: usize) -> Vec<Draft> {
        let most = self.rng.pick(&[least, 1, 2, 4, 8, 24]);
        let count = self.rng.within(least..=most);
        (0..count).map(|_| Draft::random(self.rng.within(1..=6) as u8, &mut self.rng)).collect()
    }

    fn right(&mut self) -> Case {
        let records = self.records(0);
        let file = File::random(&records, &mut self.rng);
        let name = if file.bytes.len() == file.after_end() { "right" } else { "right, with fillers" };
        Case { name: name.into(), file: file.bytes, answer: Some((0, 0)) }
    }

    /// Near or at the greatest size, with its fillers: many small records, few long ones, any, or a single one.
    fn full(&mut self) -> Case {
        let Cases { rng, .. } = self;
        let size = if rng.one_in(2) { LONGEST } else { rng.within(LONGEST - 20_000..=LONGEST) };
        let (style, fillers) = (rng.below(4), fillers::some(size, rng));
        let mut record = || {
            let kind = rng.within(1..=6) as u8;
            match style {
                0 => small(kind, rng),
                1 => long(kind, rng),
                _ => Draft::random(kind, rng),
            }
        };
        let book = size - fillers;
        let mut file = if style < 3 { File::full(book, record) } else { File::padded(book, vec![record()]) };
        file.fill(fillers);
        Case { name: format!("full, style {style}"), file: file.bytes, answer: Some((0, 0)) }
    }

    fn overfilled(&mut self) -> Case {
        let file = fillers::overfilled(&mut self.rng);
        Case { name: "overfilled".into(), file: file.bytes, answer: Some((1, 0)) }
    }

    /// One record is changed in one way.
    fn changed(&mut self) -> Case {
        let mut records = self.records(1);
        let Cases { rng, changes } = self;
        let at = rng.within(0..=records.len() - 1);
        let fitting: Vec<_> = changes.iter().filter(|change| change.fits(records[at].kind)).collect();
        let change = rng.pick(&fitting);
        change.apply(&mut records[at], rng);
        let file = File::random(&records, rng);
        let place = if change.number == 0 { 0 } else { file.places[at] };
        Case { name: change.name.clone(), file: file.bytes, answer: Some((change.number, place)) }
    }

    fn often_changed(&mut self) -> File {
        let mut records = self.records(1);
        let Cases { rng, changes } = self;
        let bad: Vec<_> = changes.iter().filter(|change| change.number != 0).collect();
        for _ in 0..rng.within(1..=4) {
            let record = rng.within(0..=records.len() - 1);
            rng.pick(&bad).apply(&mut records[record], rng);
        }
        File::random(&records, rng)
    }

    fn changed_often(&mut self) -> Case {
        Case { name: "changed often".into(), file: self.often_changed().bytes, answer: None }
    }

    /// The whole file is damaged in one way.
    fn damaged(&mut self) -> Case {
        let records = self.records(1);
        let mut file = File::random(&records, &mut self.rng);
        let (name, number, damage) = self.rng.pick(DAMAGES);
        let place = damage(&mut file, &mut self.rng);
        Case { name: name.into(), file: file.bytes, answer: Some((number, place)) }
    }

    /// Records are changed and the whole file is damaged.
    fn damaged_often(&mut self) -> Case {
        let mut file = self.often_changed();
        let (_, _, damage) = self.rng.pick(DAMAGES);
        damage(&mut file, &mut self.rng);
        Case { name: "damaged often".into(), file: file.bytes, answer: None }
    }

    /// A record's lengths are changed, most by little.
    fn lying(&mut self) -> Case {
        let mut records = self.records(1);
        let Cases { rng, .. } = self;
        let at = rng.within(0..=records.len() - 1);
        let record = &mut records[at];
        let lengths = [
            (Field::Length, record.bytes().len() - 3),
            (Field::TextLength, record.text.len()),
            (Field::NoteLength, record.note.len()),
        ];
        for _ in 0..rng.within(1..=2) {
            let (field, length) = rng.pick(&lengths);
            let lie = (length + rng.within(0..=6)).saturating_sub(3);
            record.put(field, low_first(if rng.one_in(4) { rng.u16().into() } else { lie }));
        }
        let file = File::random(&records, rng);
        Case { name: "lying".into(), file: file.bytes, answer: None }
    }

    /// Some bytes of a right file are changed, most by little.
    fn scratched(&mut self) -> Case {
        let mut file = self.right().file;
        let Cases { rng, .. } = self;
        for _ in 0..rng.within(1..=3) {
            let at = if rng.one_in(8) { rng.within(0..=11) } else { rng.within(0..=file.len() - 1) };
            file[at] = match rng.below(4) {
                0 => rng.u8(),
                1 => rng.pick(&[0, 1, 2, 3, 4, 5, 6, 26, 50, 255]),
                2 => file[at].wrapping_add(1),
                _ => file[at].wrapping_sub(1),
            };
        }
        Case { name: "scratched".into(), file, answer: None }
    }

    /// Random bytes, alone or after a right beginning.
    fn anything(&mut self) -> Case {
        let Cases { rng, .. } = self;
        let mut file = match rng.below(4) {
            0 => vec![],
            1 => IDENTIFICATION.to_vec(),
            _ => [&IDENTIFICATION[..], &[0, 0, 1, 0, 0, 0, 0]].concat(),
        };
        if rng.one_in(2) {
            let length = rng.below(60) as u8;
            file.extend([rng.within(1..=6) as u8, length, 0]);
        }
        let (count, most) = (rng.within(0..=100), rng.pick(&[1, 12, 255]));
        file.extend((0..count).map(|_| rng.within(0..=most) as u8));
        Case { name: "anything".into(), file, answer: None }
    }
}

/// With a short text and nothing more.
pub fn small(kind: u8, rng: &mut Rng) -> Draft {
    let text = letters(rng.below(6) as usize, rng);
    Draft { text, note: vec![], padding: vec![], ..Draft::random(kind, rng) }
}

/// With the longest text and note.
pub fn long(kind: u8, rng: &mut Rng) -> Draft {
    Draft { text: letters(27, rng), note: full_note(rng), padding: vec![], ..Draft::random(kind, rng) }
}
