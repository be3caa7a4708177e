//! What is compared with what. A check ends at the first difference and says it in words.

pub mod damaged;
pub mod lassos;
pub mod pairs;
pub mod program;
pub mod room;
pub mod samples;

use crate::lent::{Lengths, Lent};
use crate::library;
use crate::reference::decide::{decide, Answer};
use crate::reference::records::{read, STATES_OF_A, STATES_OF_B};
use crate::text::written;

/// What went wrong, in words.
pub type Checked<T = ()> = Result<T, String>;

/// How much was compared, so that a run that did little does not look like one that did much.
#[derive(Default)]
pub struct Tally {
    pub decided: u64,
    /// By answer number.
    pub answers: [u64; 12],
    pub shown: u64,
    pub lassos: u64,
    pub programs: u64,
    /// Verdicts held to `independent::classes` and to `independent::ranks`.
    pub by_classes: u64,
    pub by_ranks: u64,
    pub included: u64,
}

/// One question to the library.
#[derive(Clone)]
pub struct Question<'a> {
    pub model: &'a [u8],
    pub rule: &'a [u8],
    pub stem_room: u64,
    pub period_room: u64,
    pub lengths: Lengths,
}

impl<'a> Question<'a> {
    /// With tables that are as short as S and P allow.
    pub fn new(model: &'a [u8], rule: &'a [u8], stem_room: u64, period_room: u64) -> Question<'a> {
        Question { model, rule, stem_room, period_room, lengths: Lengths::least(stem_room, period_room) }
    }

    fn said(&self) -> String {
        let Question { model, rule, stem_room, period_room, lengths } = self;
        format!("model: {}\nrule: {}\nS={stem_room} P={period_room} {lengths:?}", written(model), written(rule))
    }
}

/// What was answered: the answer and the shown lasso, whose words are empty where none is shown.
pub struct Told {
    pub answer: Answer,
    pub stem: Vec<u8>,
    pub period: Vec<u8>,
}

/// Asks the library and the reference, and compares the number and every element of every lent table.
pub fn compared(question: &Question, salt: u64, tally: &mut Tally) -> Checked<Told> {
    let Question { model, rule, stem_room, period_room, lengths } = *question;
    let mut wanted = Lent::new(lengths, salt);
    let mut lent = wanted.clone();
    let answer = decide(model, rule, stem_room, period_room, &mut wanted);
    let number = library::decide(model, rule, stem_room, period_room, &mut lent);
    tally.decided += 1;
    tally.answers[answer.number as usize] += 1;
    tally.shown += u64::from(answer.period_length > 0);
    if u64::from(number) != answer.number {
        return Err(format!("the number is {number} and should be {}\n{}", answer.number, question.said()));
    }
    if let Some(difference) = lent.difference(&wanted) {
        return Err(format!("{difference}\n{}\nthe answer should be {answer:?}", question.said()));
    }
    bounded(&answer, model, rule).map_err(|what| format!("{what}\n{}", question.said()))?;
    let stem = lent.stem.part()[..answer.stem_length as usize].to_vec();
    let period = lent.period.part()[..answer.period_length as usize].to_vec();
    Ok(Told { answer, stem, period })
}

/// "U and W have at most a·2^b entries each", a period table at most a·3^(b·b), and "always t <= u·w·p".
fn bounded(answer: &Answer, model: &[u8], rule: &[u8]) -> Checked {
    let Answer { number, u, w, p, t, .. } = *answer;
    if let (0 | 8 | 9, Ok(a), Ok(b)) = (number, read(model, STATES_OF_A), read(rule, STATES_OF_B)) {
        let stems = (a.states << b.states) as u64;
        let periods = (a.states as u64).saturating_mul(3u64.saturating_pow((b.states * b.states) as u32));
        if u > stems || w > stems || p > periods {
            return Err(format!("u, w, p are {u}, {w}, {p} and at most {stems}, {stems}, {periods}"));
        }
    }
    if t > u * w * p {
        return Err(format!("t is {t} and u·w·p is {u}·{w}·{p}"));
    }
    Ok(())
}

/// The answer that a check knows without the reference.
pub fn expected(told: &Told, number: u64, which: u64, place: u64) -> Checked {
    let is = (told.answer.number, told.answer.which, told.answer.place);
    let should = (number, which, place);
    if is != should {
        return Err(format!("the answer is {is:?} (number, which, place) and should be {should:?}"));
    }
    Ok(())
}
