//! "The program": what it prints for the bytes of its two files.

use super::decide::{decide, Answer};
use crate::lent::{Lengths, Lent};

pub const STEM_ROOM: u64 = 4_096;
pub const PERIOD_ROOM: u64 = 2_048;

/// "Only the first 16,456 bytes count, since 4,114 records can't all be different and good."
pub const BYTES_THAT_COUNT: usize = 16_456;

/// The whole output. A missing file is empty.
pub fn output(model: &[u8], rule: &[u8]) -> String {
    let counted = |bytes: &'_ [u8]| bytes[..bytes.len().min(BYTES_THAT_COUNT)].to_vec();
    let mut lent = Lent::new(Lengths::least(STEM_ROOM, PERIOD_ROOM), 0);
    let answer = decide(&counted(model), &counted(rule), STEM_ROOM, PERIOD_ROOM, &mut lent);
    let stem = &lent.stem.part()[..answer.stem_length as usize];
    let period = &lent.period.part()[..answer.period_length as usize];
    printed(&answer, stem, period)
}

fn printed(answer: &Answer, stem: &[u8], period: &[u8]) -> String {
    let shown = !period.is_empty();
    let verdict = match answer.number {
        0 if shown => "NOT INCLUDED".to_string(),
        0 => "INCLUDED".to_string(),
        number => format!("REFUSED {number} {} {}", answer.which, answer.place),
    };
    let counts = format!("U={} W={} P={} T={}", answer.u, answer.w, answer.p, answer.t);
    let mut lines = vec![verdict, counts];
    if shown {
        lines.push(format!("stem:{}", letters(stem)));
        lines.push(format!("period:{}", letters(period)));
    }
    lines.iter().map(|line| format!("{line}\n")).collect()
}

/// "Each letter as a space and a decimal number."
fn letters(word: &[u8]) -> String {
    word.iter().map(|letter| format!(" {letter}")).collect()
}
