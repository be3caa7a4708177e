//! Random pairs: library against reference at many rooms, verdicts and shown lassos against the independent decisions.

use super::program::Program;
use super::{compared, lassos, Checked, Question, Tally, Told};
use crate::drawn::{lasso_of, pair, Pair};
use crate::independent::{classes, product, ranks, Arrows};
use crate::library;
use crate::random::Random;
use std::path::{Path, PathBuf};

/// Every so many pairs all rooms up to what the walk needs are tried, so that 8 and 9 come at every place.
const SWEEP_EVERY: u64 = 25;
const LONGEST_SWEEP: u64 = 80;

/// The pair of a case, as `check` draws it.
pub fn of_case(seed: u64, case: u64) -> Pair {
    pair(&mut Random::of(seed, case), case)
}

pub fn check(seed: u64, case: u64, program: &Program, tally: &mut Tally) -> Checked {
    let mut random = Random::of(seed, case);
    let Pair { model, rule, period_room, .. } = pair(&mut random, case);
    let told = asked(&mut random, &model, &rule, 4_096, period_room as u64, tally)?;
    if told.answer.number == 0 {
        verdict(&model, &rule, &told, tally)?;
        more_room(&mut random, &model, &rule, &told, tally)?;
    }
    let (u, w, p) = (told.answer.u, told.answer.w, told.answer.p);
    if case % SWEEP_EVERY == 0 {
        for stem_room in 1..=u.max(w).min(LONGEST_SWEEP) {
            asked(&mut random, &model, &rule, stem_room, p.max(1), tally)?;
        }
        for period_room in 1..=p.min(LONGEST_SWEEP) {
            asked(&mut random, &model, &rule, u.max(w), period_room, tally)?;
        }
    } else {
        for _ in 0..2 {
            let stem_room = near(&mut random, &[u, w]);
            asked(&mut random, &model, &rule, stem_room, period_room as u64, tally)?;
            let period_room = near(&mut random, &[p]);
            asked(&mut random, &model, &rule, u.max(w), period_room, tally)?;
        }
    }
    for records in [&model, &rule] {
        let (stem, period) = lasso_of(&mut random, records, 7);
        lassos::compared(records, &stem, &period, tally)?;
    }
    if program.due(case) {
        program.check(Some(&model), Some(&rule), tally)?;
    }
    Ok(())
}

/// The pairs of bench/, on which the walk has much to do, at rooms that it soon fills.
pub fn check_hard(folder: &Path, tally: &mut Tally) -> Checked {
    let listed = std::fs::read_dir(folder).map_err(|why| format!("{}: {why}", folder.display()))?;
    let mut folders: Vec<PathBuf> = listed.filter_map(|entry| Some(entry.ok()?.path())).filter(|path| path.is_dir()).collect();
    folders.sort();
    let mut random = Random::of(0, 0);
    for path in folders {
        let read = |name| std::fs::read(path.join(name)).map_err(|why| format!("{}: {why}", path.display()));
        let (model, rule) = (read("model.rec")?, read("rule.rec")?);
        for (stem_room, period_room) in [(4_096, 64), (4_096, 500), (40, 500), (97, 64)] {
            asked(&mut random, &model, &rule, stem_room, period_room, tally)
                .map_err(|what| format!("{}: {what}", path.display()))?;
        }
    }
    Ok(())
}

/// More room never changes an answer; above 2,048 the library works in another scratch.
fn more_room(random: &mut Random, model: &[u8], rule: &[u8], told: &Told, tally: &mut Tally) -> Checked {
    let period_room = random.between(2_049, 2_100) as u64;
    let again = asked(random, model, rule, 4_096, period_room, tally)?;
    if again.answer.row() != told.answer.row() {
        return Err(format!("P={period_room}: the answer is {:?} and was {:?}", again.answer.row(), told.answer.row()));
    }
    Ok(())
}

/// A room at one of these counts, beside it, or anywhere below.
fn near(random: &mut Random, counts: &[u64]) -> u64 {
    let count = random.one_of(counts);
    match random.below(4) {
        0 => count,
        1 => count.saturating_sub(1),
        2 => count + 1,
        _ => random.between(1, count.max(1) as usize) as u64,
    }
    .max(1)
}

/// Asks with tables that are a little longer than needed.
fn asked(random: &mut Random, model: &[u8], rule: &[u8], stem_room: u64, period_room: u64, tally: &mut Tally) -> Checked<Told> {
    let mut question = Question::new(model, rule, stem_room, period_room);
    question.lengths = question.lengths.longer(|| random.below(4));
    let told = compared(&question, random.bits(), tally)?;
    if told.answer.period_length > 0 {
        shown(model, rule, &told)?;
    }
    Ok(told)
}

/// A shown lasso is accepted by the model and rejected by the rule, say the product graph and the library's own lasso test.
fn shown(model: &[u8], rule: &[u8], told: &Told) -> Checked {
    let Told { stem, period, .. } = told;
    let by_model = (product::accepts(&Arrows::of(model), stem, period), library::lasso(model, stem, period));
    let by_rule = (product::accepts(&Arrows::of(rule), stem, period), library::lasso(rule, stem, period));
    if by_model != (true, 1) || by_rule != (false, 0) {
        return Err(format!(
            "the shown lasso {stem:?} {period:?}: model {by_model:?}, rule {by_rule:?} (product graph, lasso test)"
        ));
    }
    Ok(())
}

/// The verdict of a finished walk against both decisions that share nothing with it, where the pair is small enough for them.
fn verdict(model: &[u8], rule: &[u8], told: &Told, tally: &mut Tally) -> Checked {
    let included = told.answer.period_length == 0;
    tally.included += u64::from(included);
    let (a, b) = (Arrows::of(model), Arrows::of(rule));
    if a.states <= 4 && b.states <= 3 {
        if let Some(by_classes) = classes::included(&a, &b) {
            tally.by_classes += 1;
            agree("classes", included, by_classes)?;
        }
    }
    if a.states <= 6 && b.states <= 3 {
        if let Some(by_ranks) = ranks::included(&a, &b) {
            tally.by_ranks += 1;
            agree("ranks", included, by_ranks)?;
        }
    }
    Ok(())
}

fn agree(name: &str, walk: bool, other: bool) -> Checked {
    if walk != other {
        return Err(format!("the walk says included: {walk}, the decision by {name} says {other}"));
    }
    Ok(())
}
