//! Writing states as answers, and back.

use crate::refusal::Refusal;
use crate::writer::Writer;
use apptbook::raw::writer::WriterAnswer;

/// What the reference's result comes over as. `before`: the state as it came, which a refusal gives back.
pub fn writer_answer(result: Result<Writer, Refusal>, before: Writer) -> WriterAnswer {
    let (refusal, state) = match result {
        Ok(state) => (Refusal { number: 0, place: 0 }, state),
        Err(refusal) => (refusal, before),
    };
    let (Refusal { number, place }, Writer { used, closed }) = (refusal, state);
    WriterAnswer { number, place, used, closed }
}

pub fn state_of(answer: WriterAnswer) -> Writer {
    Writer { used: answer.used, closed: answer.closed }
}
