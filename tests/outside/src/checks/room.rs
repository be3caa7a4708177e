//! S, P and the lengths of what is lent, around every limit: 7 and nothing written, or the walk.

use super::{compared, expected, Checked, Question, Tally};
use crate::lent::Lengths;
use crate::random::Random;
use crate::text::records;

/// M1's files.
fn all_and_often() -> (Vec<u8>, Vec<u8>) {
    (records("I 0, F 0, T 0 0 0, T 0 1 0"), records("I 0, F 1, T 0 0 1, T 0 1 0, T 1 0 1, T 1 1 0"))
}

/// Values of S and P at and beyond their ends, with tables that would be long enough for all that are in range.
pub fn check_ranges(tally: &mut Tally) -> Checked {
    let (model, rule) = all_and_often();
    let plenty = Lengths::least(4_100, 65_540);
    let mut ask = |stem_room, period_room, number| {
        let question = Question { stem_room, period_room, lengths: plenty, ..Question::new(&model, &rule, 1, 1) };
        let told = compared(&question, stem_room ^ period_room, tally)?;
        let is = told.answer.number;
        if is == number {
            Ok(())
        } else {
            Err(format!("S={stem_room} P={period_room}: the number is {is} and should be {number}"))
        }
    };
    // Beyond 32 and 64 bits too: a number that is cut short, or doubled, on its way must not come back into range.
    let far = [1 << 16, 1 << 31, 1 << 32, (1 << 32) + 2, 1 << 62, 1 << 63, (1 << 63) + 2, u64::MAX - 1, u64::MAX];
    for bad in [0, 4_097, 4_098, 65_535].into_iter().chain(far) {
        ask(bad, 2_048, 7)?;
        ask(bad, 0, 7)?;
    }
    for bad in [0, 65_536, 65_537].into_iter().chain(far) {
        ask(4_096, bad, 7)?;
        ask(4_097, bad, 7)?;
    }
    for stem_room in [2, 3, 255, 256, 4_095, 4_096] {
        for period_room in [2, 3, 255, 256, 2_047, 2_048, 2_049, 65_534, 65_535] {
            ask(stem_room, period_room, 0)?;
        }
    }
    ask(1, 2_048, 8)?;
    ask(4_096, 1, 9)
}

/// Each of the seven lengths one too short, empty, exact and longer, alone and together; the row from none to ten numbers.
pub fn check_lengths(tally: &mut Tally) -> Checked {
    let (model, rule) = all_and_often();
    for (stem_room, period_room) in [(2, 2), (1, 1), (5, 7), (40, 300), (4_096, 2_048), (4_096, 65_535)] {
        let least = Lengths::least(stem_room, period_room);
        let mut ask = |lengths: Lengths, refused: bool| {
            let question = Question { lengths, ..Question::new(&model, &rule, stem_room, period_room) };
            let told = compared(&question, stem_room, tally)?;
            match (refused, told.answer.number == 7) {
                (true, true) => expected(&told, 7, 0, 0),
                (false, false) => Ok(()),
                _ => Err(format!("S={stem_room} P={period_room} {lengths:?}: the number is {}", told.answer.number)),
            }
        };
        ask(least, false)?;
        ask(least.longer(|| 1), false)?;
        ask(Lengths { row: 10, ..least }, false)?;
        for table in 0..7 {
            let with = |length: &dyn Fn(usize) -> usize| {
                let mut lengths = least;
                let changed = lengths.all().into_iter().nth(table).expect("one of seven");
                *changed = length(*changed);
                lengths
            };
            ask(with(&|n| n + 1), false)?;
            ask(with(&|n| n - 1), true)?;
            ask(with(&|n| n / 2), true)?;
            ask(with(&|_| 0), true)?;
        }
        for row in 0..9 {
            ask(Lengths { row, ..least }, true)?;
        }
        let mut none = least;
        none.all().into_iter().for_each(|length| *length = 0);
        ask(none, true)?;
    }
    Ok(())
}

/// 1 to 6, of A and then of B, come before 7, whatever is wrong with the room.
pub fn check_order(tally: &mut Tally) -> Checked {
    let (model, rule) = all_and_often();
    let bad: [(&[u8], u64, u64); 4] = [(b"I\0\0", 1, 0), (b"I\0\0\0G\0\0\0", 2, 4), (b"I\0\0\0F\0\x01\0", 3, 4), (b"", 6, 0)];
    let mut random = Random::of(7, 7);
    for (file, number, place) in bad {
        for _ in 0..20 {
            let (stem_room, period_room) = (random.one_of(&[0, 1, 4_097, u64::MAX]), random.one_of(&[0, 1, 65_536]));
            let lengths = Lengths::least(0, 0).longer(|| random.below(3));
            let lengths = Lengths { row: random.below(12), ..lengths };
            let first = Question { model: file, rule: b"?", stem_room, period_room, lengths };
            expected(&compared(&first, 1, tally)?, number, 0, place)?;
            let second = Question { model: &model, rule: file, stem_room, period_room, lengths };
            expected(&compared(&second, 2, tally)?, number, 1, place)?;
            let none = Question { model: &model, rule: &rule, stem_room, period_room, lengths };
            expected(&compared(&none, 3, tally)?, 7, 0, 0)?;
        }
    }
    Ok(())
}
