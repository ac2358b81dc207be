//! Answers of the proved library, compared with the reference's and counted.

use super::Tally;
use crate::answers::IntoAnswer;
use apptbook::raw::book::{BookAnswer, LineAnswer, LinesAnswer, RecordAnswer};
use apptbook::raw::calendar::{AppointmentAnswer, DescriptorAnswer};
use apptbook::raw::days::{DateAnswer, DayAnswer, FactsAnswer, LengthAnswer, WeekdayAnswer};
use apptbook::raw::pages::{CountAnswer, FallsAnswer, OccurrenceAnswer, PageLineAnswer};
use apptbook::raw::reasons::ReasonAnswer;
use apptbook::raw::writer::WriterAnswer;
use std::fmt::Debug;
use std::{env, fs};

pub trait Answer: PartialEq + Debug {
    fn number(&self) -> u32;
}

macro_rules! answers {
    ($($name:ident),*) => { $(impl Answer for $name {
        fn number(&self) -> u32 {
            self.number
        }
    })* };
}

answers!(
    LengthAnswer,
    DayAnswer,
    DateAnswer,
    WeekdayAnswer,
    FactsAnswer,
    BookAnswer,
    RecordAnswer,
    LinesAnswer
);
answers!(LineAnswer, WriterAnswer, FallsAnswer, ReasonAnswer, OccurrenceAnswer, CountAnswer, PageLineAnswer);
answers!(DescriptorAnswer, AppointmentAnswer);

impl Answer for bool {
    fn number(&self) -> u32 {
        0
    }
}

/// Compares answers and counts them.
pub struct Look<'a> {
    pub tally: &'a mut Tally,
    pub seed: u64,
    pub input: &'a [u8],
}

impl Look<'_> {
    pub fn same<A: Answer>(&mut self, call: &'static str, proved: A, plain: A) {
        self.tally.add(call, plain.number());
        if proved != plain {
            self.fail(&format!("{call}: {proved:?}, not {plain:?}"));
        }
    }

    pub fn at<A: Answer>(&mut self, call: &'static str, proved: A, plain: impl IntoAnswer<A>) {
        self.same(call, proved, plain.answer());
    }

    /// Keeps the file that was lent.
    pub fn fail(&self, words: &str) -> ! {
        let path = env::temp_dir().join(format!("fuzz-{}", self.seed));
        let kept = fs::write(&path, self.input);
        panic!("{words}; the file lent is in {}: {kept:?}; again: fuzz 0 {} calls", path.display(), self.seed)
    }
}
