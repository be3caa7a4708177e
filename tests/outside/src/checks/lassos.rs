//! The lasso test: library against reference and product graph; 10 and 11 and their order; long words.

use super::{Checked, Tally};
use crate::drawn::{lasso_of, pair};
use crate::independent::{product, Arrows};
use crate::library;
use crate::random::Random;
use crate::reference::lasso::lasso;
use crate::text::{records, written};

/// Asks the library, the reference and, where the answer is a verdict, the product graph.
pub fn compared(records: &[u8], stem: &[u8], period: &[u8], tally: &mut Tally) -> Checked<u32> {
    let (is, should) = (library::lasso(records, stem, period), lasso(records, stem, period));
    tally.lassos += 1;
    let said = || format!("the lasso test of {} on stem {} and period {}", written(records), short(stem), short(period));
    if is != should {
        return Err(format!("{} is {is} and should be {should}", said()));
    }
    if should < 100 {
        let accepts = product::accepts(&Arrows::of(records), stem, period);
        if accepts != (should == 1) {
            return Err(format!("{}: both implementations say {should}, the product graph {accepts}", said()));
        }
    }
    Ok(should)
}

fn short(word: &[u8]) -> String {
    if word.len() <= 40 {
        format!("{word:?}")
    } else {
        format!("of {} letters", word.len())
    }
}

fn answers(records: &[u8], stem: &[u8], period: &[u8], wanted: u32, tally: &mut Tally) -> Checked {
    let is = compared(records, stem, period, tally)?;
    if is != wanted {
        return Err(format!(
            "the lasso test of {} on {} and {} is {is} and should be {wanted}",
            written(records),
            short(stem),
            short(period)
        ));
    }
    Ok(())
}

/// Cases whose answer is known from document 01 alone.
pub fn check_known(tally: &mut Tally) -> Checked {
    let round = records("I 0, F 1, T 0 0 1, T 1 0 0"); // M8: the loop takes two periods
    let once = records("I 0, F 0, T 0 0 1, T 1 0 1"); // M9: the accepting state is left for good
    let middle = records("I 0, F 1, T 0 0 1, T 1 1 0"); // acceptance in the middle of a period only
    let all = records("I 15, F 15, T 15 0 15, T 15 15 15");
    answers(&round, &[], &[0], 1, tally)?;
    answers(&once, &[], &[0], 0, tally)?;
    answers(&middle, &[], &[0, 1], 1, tally)?;
    answers(&middle, &[], &[0], 0, tally)?;
    answers(&all, &[], &[15], 1, tally)?;
    // 10 comes before 11, and both after 1 to 6.
    answers(&all, &[], &[], 110, tally)?;
    answers(&all, &[16], &[], 110, tally)?;
    answers(&all, &[16], &[16], 111, tally)?;
    answers(&[0x49, 0, 0], &[16], &[], 101, tally)?;
    answers(&[], &[16], &[], 106, tally)?;
    for bad in [16, 17, 127, 128, 255] {
        for length in [1, 2, 3, 17] {
            for place in 0..length {
                let (good, mut damaged) = (vec![15; length], vec![15; length]);
                damaged[place] = bad;
                answers(&all, &damaged, &good, 111, tally)?;
                answers(&all, &good, &damaged, 111, tally)?;
                answers(&all, &[], &damaged, 111, tally)?;
                answers(&all, &damaged, &[], 110, tally)?;
            }
        }
    }
    Ok(())
}

/// Words of a million letters. A ring of sixteen states is turned by letter 0 and held by letter 1, so that the answers are
/// known by counting; and one word on an automaton with many arrows is held to the reference.
pub fn check_long(tally: &mut Tally) -> Checked {
    let mut ring = records("I 0, F 7");
    for q in 0..16u8 {
        ring.extend([b'T', q, 0, (q + 1) % 16, b'T', q, 1, q]);
    }
    let million = vec![0; 1_000_000];
    let with_last = |letter| [&million[1..], &[letter]].concat();
    let mut cases: Vec<(&[u8], &[u8], u32)> = vec![];
    let (dead, bad) = (with_last(2), with_last(16));
    cases.push((&million, &million, 1)); // goes round for ever, through 7
    cases.push((&million, &[1], 0)); // held at 0: a million is 0 modulo 16
    cases.push((&million[9..], &[1], 1)); // nine less: held at 7
    cases.push((&dead, &[0], 0));
    cases.push((&[], &dead, 0));
    cases.push((&bad, &million, 111));
    cases.push((&million, &bad, 111));
    for (stem, period, wanted) in cases {
        let is = library::lasso(&ring, stem, period);
        tally.lassos += 1;
        if is != wanted {
            return Err(format!("the ring on stem {} and period {} is {is} and should be {wanted}", short(stem), short(period)));
        }
    }
    let mut random = Random::of(1, 0);
    let many: Vec<u8> =
        (0..16u8).flat_map(|q| [[b'T', q, 0, q / 2], [b'T', q, 0, 15 - q], [b'T', q, 1, (q + 5) % 16]].concat()).collect();
    let many = [records("I 3, F 9"), many].concat();
    let long: Vec<u8> = (0..1_000_000).map(|_| random.below(2) as u8).collect();
    let (is, should) = (library::lasso(&many, &long, &long), lasso(&many, &long, &long));
    tally.lassos += 1;
    if is != should {
        return Err(format!("a long word of two letters is {is} and should be {should}"));
    }
    Ok(())
}

/// Random automata and words of up to some hundred letters, one letter in fifty damaged.
pub fn check_random(seed: u64, count: u64, tally: &mut Tally) -> Checked {
    for case in 0..count {
        let mut random = Random::of(seed ^ 0x1a550, case);
        let pair = pair(&mut random, case);
        let (mut stem, mut period) = lasso_of(&mut random, &pair.model, 200);
        for word in [&mut stem, &mut period] {
            if !word.is_empty() && random.percent(2) {
                let place = random.below(word.len());
                word[place] = random.between(16, 255) as u8;
            }
        }
        compared(&pair.model, &stem, &period, tally)?;
    }
    Ok(())
}
