//! Document 01's sample models M1 to M13, one pair for each of its shortcuts that give false verdicts, and the publisher:
//! the files of samples/ against the answers that document 01 prints.

use super::{compared, Checked, Question, Tally};
use crate::lent::Lengths;
use crate::library;
use std::path::Path;

const S: u64 = 4_096;
const P: u64 = 2_048;

/// What a sample must answer: number, which, place; u, w, p, t; and the lasso's words.
type Wanted = ([u64; 3], [u64; 4], &'static [u8], &'static [u8]);

const M1: Wanted = ([0, 0, 0], [2, 2, 2, 2], &[], &[1]);

pub fn check(samples: &Path, tally: &mut Tally) -> Checked {
    let mut pair = |name: &str, stem_room: u64, period_room: u64, wanted: Wanted| {
        let (model, rule) = (read(samples, name, "model.rec")?, read(samples, name, "rule.rec")?);
        let question =
            Question { lengths: Lengths::least(S + 1, 65_536), ..Question::new(&model, &rule, stem_room, period_room) };
        answered(&question, wanted, tally).map_err(|what| format!("sample {name}, S={stem_room}, P={period_room}: {what}"))
    };
    let seven: Wanted = ([7, 0, 0], [0; 4], &[], &[]);
    pair("M1", S, P, M1)?;
    pair("M2", S, P, ([0, 0, 0], [2, 2, 2, 1], &[], &[]))?;
    pair("M3", S, P, ([0, 0, 0], [2, 2, 2, 1], &[], &[]))?;
    pair("M4", S, P, ([0, 0, 0], [2, 1, 0, 0], &[], &[]))?;
    pair("M5", S, P, ([0, 0, 0], [2, 1, 1, 1], &[], &[0]))?;
    pair("M6", 1, P, ([8, 0, 1], [1, 0, 0, 0], &[], &[]))?;
    pair("M6", 2, P, M1)?;
    pair("M7", S, 1, ([9, 0, 1], [2, 2, 1, 0], &[], &[]))?;
    pair("M7", S, 2, M1)?;
    pair("M10-loads", S, P, ([0, 0, 0], [1, 1, 0, 0], &[], &[]))?;
    pair("M10-refused", S, P, ([4, 0, 0], [0; 4], &[], &[]))?;
    pair("M11-loads", S, P, ([0, 0, 0], [1, 1, 0, 0], &[], &[]))?;
    pair("M11-refused", S, P, ([4, 1, 0], [0; 4], &[], &[]))?;
    pair("M12-empty", S, P, ([6, 0, 0], [0; 4], &[], &[]))?;
    pair("M12-three-bytes", S, P, ([1, 0, 0], [0; 4], &[], &[]))?;
    pair("M13", 0, P, seven)?;
    pair("M13", S + 1, P, seven)?;
    pair("M13", S, 65_536, seven)?;
    pair("shortcuts/one-period-table", S, P, ([0, 0, 0], [2, 3, 3, 3], &[], &[1, 0]))?;
    pair("shortcuts/another-state", S, P, ([0, 0, 0], [2, 2, 1, 1], &[1], &[1]))?;
    pair("shortcuts/one-period-only", S, P, ([0, 0, 0], [2, 2, 2, 4], &[], &[]))?;
    pair("shortcuts/ends-only", S, P, ([0, 0, 0], [2, 2, 2, 4], &[], &[]))?;
    pair("shortcuts/any-visit", S, P, ([0, 0, 0], [1, 2, 1, 1], &[], &[0]))?;
    short_stem_output(samples, seven, tally)?;
    lasso(samples, "M8", 1)?;
    lasso(samples, "M9", 0)
}

/// M13's last: a stem output of S - 1 bytes.
fn short_stem_output(samples: &Path, wanted: Wanted, tally: &mut Tally) -> Checked {
    let (model, rule) = (read(samples, "M13", "model.rec")?, read(samples, "M13", "rule.rec")?);
    let lengths = Lengths { stem: S as usize - 1, ..Lengths::least(S, P) };
    let question = Question { lengths, ..Question::new(&model, &rule, S, P) };
    answered(&question, wanted, tally).map_err(|what| format!("sample M13, a short stem output: {what}"))
}

fn answered(question: &Question, wanted: Wanted, tally: &mut Tally) -> Checked {
    let told = compared(question, 13, tally)?;
    let a = told.answer;
    let is = ([a.number, a.which, a.place], [a.u, a.w, a.p, a.t], &told.stem[..], &told.period[..]);
    if is != wanted {
        return Err(format!("the answer is {is:?} and should be {wanted:?}"));
    }
    Ok(())
}

/// Empty stem, period 0.
fn lasso(samples: &Path, name: &str, wanted: u32) -> Checked {
    let is = library::lasso(&read(samples, name, "automaton.rec")?, &[], &[0]);
    if is != wanted {
        return Err(format!("sample {name}: the lasso test is {is} and should be {wanted}"));
    }
    Ok(())
}

fn read(samples: &Path, name: &str, file: &str) -> Checked<Vec<u8>> {
    let path = samples.join(name).join(file);
    std::fs::read(&path).map_err(|why| format!("{}: {why}", path.display()))
}
