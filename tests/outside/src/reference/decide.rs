//! The entry point: both files, then the room, then the walk; what the row of nine says and what each lent element holds.

use super::records::{read, Refusal, STATES_OF_A, STATES_OF_B};
use super::walk::{walk, End, Stem, Walked};
use crate::lent::Lent;

pub const LARGEST_S: u64 = 4_096;
pub const LARGEST_P: u64 = 65_535;

/// The answer, in the order in which the row has it.
#[derive(Clone, Copy, Debug, Default, PartialEq, Eq)]
pub struct Answer {
    pub number: u64,
    pub which: u64,
    pub place: u64,
    pub u: u64,
    pub w: u64,
    pub p: u64,
    pub t: u64,
    pub stem_length: u64,
    pub period_length: u64,
}

impl Answer {
    pub fn row(&self) -> [u64; 9] {
        [self.number, self.which, self.place, self.u, self.w, self.p, self.t, self.stem_length, self.period_length]
    }

    pub fn of_row(row: &[u64]) -> Answer {
        let [number, which, place, u, w, p, t, stem_length, period_length] = row[..9].try_into().expect("a row of nine");
        Answer { number, which, place, u, w, p, t, stem_length, period_length }
    }

    fn refused(which: u64, refusal: Refusal) -> Answer {
        Answer { number: refusal.number.into(), which, place: refusal.place as u64, ..Answer::default() }
    }
}

/// Decides, and leaves in every lent table what document 01 says. A row that is too short to hold the answer stays as it came.
pub fn decide(model: &[u8], rule: &[u8], stem_room: u64, period_room: u64, lent: &mut Lent) -> Answer {
    let answer = judged(model, rule, stem_room, period_room, lent);
    if lent.row.len() >= 9 {
        lent.row.part()[..9].copy_from_slice(&answer.row());
    }
    answer
}

fn judged(model: &[u8], rule: &[u8], stem_room: u64, period_room: u64, lent: &mut Lent) -> Answer {
    let a = match read(model, STATES_OF_A) {
        Ok(a) => a,
        Err(refusal) => return Answer::refused(0, refusal),
    };
    let b = match read(rule, STATES_OF_B) {
        Ok(b) => b,
        Err(refusal) => return Answer::refused(1, refusal),
    };
    if !enough(stem_room, period_room, lent) {
        return Answer { number: 7, ..Answer::default() };
    }
    let walked = walk(&a, &b, stem_room as usize, period_room as usize);
    hand_back(&walked, period_room as usize, lent);
    answer(&walked, stem_room, period_room)
}

/// Are S and P in range, and every lent table and output long enough?
fn enough(stem_room: u64, period_room: u64, lent: &Lent) -> bool {
    if !(1..=LARGEST_S).contains(&stem_room) || !(1..=LARGEST_P).contains(&period_room) {
        return false;
    }
    let (s, p) = (stem_room as usize, period_room as usize);
    let stems = lent.smallest.len() >= s && lent.largest.len() >= s && lent.stem.len() >= s;
    let periods = lent.links.len() >= p && lent.contexts.len() >= 2 * p && lent.period.len() >= p;
    stems && periods && lent.row.len() >= 9
}

fn answer(walked: &Walked, stem_room: u64, period_room: u64) -> Answer {
    let counts =
        Answer { u: walked.smallest.len() as u64, w: walked.largest.len() as u64, p: walked.p, t: walked.t, ..Answer::default() };
    match &walked.end {
        End::Included => counts,
        End::Shown(stem, period) => Answer { stem_length: stem.len() as u64, period_length: period.len() as u64, ..counts },
        End::StemsFull(which) => Answer { number: 8, which: *which, place: stem_room, ..counts },
        End::PeriodsFull => Answer { number: 9, place: period_room, ..counts },
    }
}

/// "After 0, 8 and 9 U and W hold their entries and keep their old elements beyond; the first P links and 2P context
/// numbers are zero, later ones old. Outputs change only [with a shown lasso], in as many first bytes as the word has letters."
fn hand_back(walked: &Walked, period_room: usize, lent: &mut Lent) {
    write_stems(&walked.smallest, lent.smallest.part());
    write_stems(&walked.largest, lent.largest.part());
    lent.links.part()[..period_room].fill(0);
    lent.contexts.part()[..2 * period_room].fill(0);
    if let End::Shown(stem, period) = &walked.end {
        lent.stem.part()[..stem.len()].copy_from_slice(stem);
        lent.period.part()[..period.len()].copy_from_slice(period);
    }
}

fn write_stems(entries: &[Stem], table: &mut [u32]) {
    for (element, entry) in table.iter_mut().zip(entries) {
        *element = entry.packed();
    }
}
