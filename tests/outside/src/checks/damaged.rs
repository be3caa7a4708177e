//! Damaged files. A fault planted alone has an answer that is known without the reference; several at once are held to it.

use super::program::Program;
use super::{compared, expected, lassos, Checked, Question, Tally};
use crate::drawn::{pair, FAMILIES};
use crate::random::Random;

/// What is done to a good file, by the refusal that it leads to where nothing else is wrong.
#[derive(Clone, Copy, Debug, PartialEq, Eq)]
enum Fault {
    /// 1: one to three bytes more or fewer at the end.
    Length,
    /// 2: a record of unknown kind.
    Kind,
    /// 3: a byte of an I or F record that must be 0 and is not.
    Zero,
    /// 4: a state or letter past its limit.
    Limit,
    /// 5: an I, F or T record again.
    Again,
    /// 6: the I record is taken out.
    Initial,
}

const FAULTS: [Fault; 6] = [Fault::Length, Fault::Kind, Fault::Zero, Fault::Limit, Fault::Again, Fault::Initial];

/// The file's number and the largest state number that it may name.
#[derive(Clone, Copy)]
struct File {
    which: u64,
    last_state: u8,
}

const FILES: [File; 2] = [File { which: 0, last_state: 15 }, File { which: 1, last_state: 7 }];

/// Where among the records a fault is planted.
#[derive(Clone, Copy, Debug)]
enum Where {
    First,
    Middle,
    Last,
}

impl Where {
    /// The place of a new record in a file of `count` records.
    fn among(self, count: usize) -> usize {
        match self {
            Where::First => 0,
            Where::Middle => count / 2,
            Where::Last => count,
        }
    }
}

/// Damages the file once and says at which place it is refused if this is its only fault.
fn plant(random: &mut Random, fault: Fault, file: File, at: Where, bytes: &mut Vec<u8>) -> usize {
    let index = at.among(bytes.len() / 4);
    match fault {
        Fault::Length => {
            let more = random.percent(50) || bytes.is_empty();
            let by = random.between(1, 3);
            let length = if more { bytes.len() + by } else { bytes.len() - by };
            bytes.resize(length, random.one_of(b"IFT\0"));
            length / 4 * 4
        }
        Fault::Kind => {
            // Small letters, the neighbours of the good kinds, and any other byte; the rest of the record as it may come.
            let any = random.bits() as u8;
            let kind = random.one_of(&[0, b'i', b'f', b't', b'G', b'E', b'H', b'J', b'S', b'U', 0xc9, 0xff, any]);
            let kind = if b"IFT".contains(&kind) { b'X' } else { kind };
            let rest = random.bits() as u32 % if random.percent(50) { 1 } else { u32::MAX };
            insert(bytes, index, [kind, rest as u8, (rest >> 8) as u8, (rest >> 16) as u8])
        }
        Fault::Zero => {
            let kind = random.one_of(b"IF");
            let (two, three) = random.one_of(&[(1, 0), (0, 1), (0, 0x80), (255, 0), (16, 16)]);
            // A state past its limit in the same record changes nothing: 3 comes before 4.
            let state = random.one_of(&[0, file.last_state, file.last_state + 1, 255]);
            insert(bytes, index, [kind, state, two, three])
        }
        Fault::Limit => {
            let past = random.one_of(&[file.last_state + 1, file.last_state + 2, 16, 128, 255]);
            let (good, letter) = (file.last_state, random.one_of(&[16, 17, 128, 255]));
            let record = random.one_of(&[
                [b'I', past, 0, 0],
                [b'F', past, 0, 0],
                [b'T', past, 0, 0],
                [b'T', 0, 15, past],
                [b'T', good, letter, good],
                [b'T', past, letter, past],
            ]);
            insert(bytes, index, record)
        }
        Fault::Again => again(random, index, file, bytes),
        Fault::Initial => {
            let found = bytes.chunks_exact(4).position(|record| record[0] == b'I');
            if let Some(i) = found {
                bytes.drain(4 * i..4 * i + 4);
            }
            bytes.len()
        }
    }
}

fn insert(bytes: &mut Vec<u8>, index: usize, record: [u8; 4]) -> usize {
    bytes.splice(4 * index..4 * index, record);
    4 * index
}

/// Puts a copy of some record at `index`, or another I. The later of the two is refused.
fn again(random: &mut Random, index: usize, file: File, bytes: &mut Vec<u8>) -> usize {
    let count = bytes.len() / 4;
    let original = random.below(count);
    let mut record: [u8; 4] = bytes[4 * original..4 * original + 4].try_into().expect("four bytes");
    if record[0] == b'I' {
        record[1] = random.below(file.last_state as usize + 1) as u8;
    }
    insert(bytes, index, record);
    // The original has moved back by one where the copy stands before it.
    4 * if index <= original { original + 1 } else { index }
}

/// A good pair; the damaged files of a run come from all families.
fn good(random: &mut Random, case: u64) -> [Vec<u8>; 2] {
    let pair = pair(random, case % FAMILIES.len() as u64);
    [pair.model, pair.rule]
}

/// Every fault, in either file, at first, middle and last place, each forty times: 1,440 files whose answer is known.
pub fn check_each(seed: u64, program: &Program, tally: &mut Tally) -> Checked {
    let mut case = 0;
    for fault in FAULTS {
        for file in FILES {
            for at in [Where::First, Where::Middle, Where::Last] {
                for _ in 0..40 {
                    case += 1;
                    let mut random = Random::of(seed ^ 0xda_3a6ed, case);
                    let mut files = good(&mut random, case);
                    let place = plant(&mut random, fault, file, at, &mut files[file.which as usize]);
                    if file.which == 0 && random.percent(50) {
                        files[1] = b"not looked at".to_vec();
                    }
                    let number = 1 + FAULTS.iter().position(|&f| f == fault).expect("a fault") as u64;
                    let asked = ask(&mut random, &files, program, case, tally);
                    let checked = asked.and_then(|told| expected(&told, number, file.which, place as u64));
                    checked.map_err(|what| format!("{fault:?} at {at:?} of file {} (case {case}): {what}", file.which))?;
                }
            }
        }
    }
    Ok(())
}

/// One to four faults at once, anywhere in both files, and now and then bytes changed blindly.
pub fn check_mixed(seed: u64, count: u64, program: &Program, tally: &mut Tally) -> Checked {
    for case in 0..count {
        let mut random = Random::of(seed ^ 0x3a_11ed, case);
        let mut files = good(&mut random, case);
        for _ in 0..random.between(1, 4) {
            let file = random.one_of(&FILES);
            let fault = random.one_of(&FAULTS);
            let at = random.one_of(&[Where::First, Where::Middle, Where::Last]);
            if fault != Fault::Again || files[file.which as usize].len() >= 4 {
                plant(&mut random, fault, file, at, &mut files[file.which as usize]);
            }
        }
        if random.percent(30) {
            let file = &mut files[random.below(2)];
            if !file.is_empty() {
                let place = random.below(file.len());
                file[place] = random.bits() as u8;
            }
        }
        ask(&mut random, &files, program, case, tally).map_err(|what| format!("mixed faults (case {case}): {what}"))?;
    }
    Ok(())
}

/// The damaged pair to all three: `decide`, the lasso test of each file (with A's limits), and now and then the program.
fn ask(random: &mut Random, files: &[Vec<u8>; 2], program: &Program, case: u64, tally: &mut Tally) -> Checked<super::Told> {
    let mut question = Question::new(&files[0], &files[1], random.between(1, 300) as u64, random.between(1, 60) as u64);
    question.lengths = question.lengths.longer(|| random.below(3));
    let told = compared(&question, random.bits(), tally)?;
    for file in files {
        lassos::compared(file, &[0], &[0, 1], tally)?;
    }
    if case % 8 == 0 {
        program.check(Some(&files[0]), Some(&files[1]), tally)?;
    }
    Ok(told)
}
