//! "Files: four-byte records, no header", and the refusals 1 to 6.

/// A set of states: state q weighs 2^q.
pub type Set = u16;

pub const LETTERS: usize = 16;
pub const STATES_OF_A: usize = 16;
pub const STATES_OF_B: usize = 8;

pub fn has(set: Set, q: usize) -> bool {
    set >> q & 1 == 1
}

/// The members of a set, rising.
pub fn members(set: Set) -> impl Iterator<Item = usize> {
    (0..STATES_OF_A).filter(move |&q| has(set, q))
}

/// A loaded automaton: A, or B as an A with small state numbers.
#[derive(Clone, Debug)]
pub struct Automaton {
    pub initial: usize,
    pub accepting: Set,
    /// By letter and then by state: the states that the state leads to.
    pub steps: [[Set; STATES_OF_A]; LETTERS],
    /// One more than the largest state number that any record names.
    pub states: usize,
}

impl Automaton {
    /// The set moved by a letter.
    pub fn moved(&self, set: Set, letter: usize) -> Set {
        members(set).fold(0, |all, q| all | self.steps[letter][q])
    }
}

/// A refusal of one file: its number and its place.
#[derive(Clone, Copy, Debug, PartialEq, Eq)]
pub struct Refusal {
    pub number: u32,
    pub place: usize,
}

/// The automaton that the records spell out, or the first refusal: 1, then record by record 2, 3, 4, 5, then 6.
pub fn read(bytes: &[u8], states: usize) -> Result<Automaton, Refusal> {
    let refused = |number, place| Err(Refusal { number, place });
    if bytes.len() % 4 != 0 {
        return refused(1, bytes.len() / 4 * 4);
    }
    let records: Vec<&[u8]> = bytes.chunks(4).collect();
    for (i, record) in records.iter().enumerate() {
        if let Some(number) = fault(record, &records[..i], states) {
            return refused(number, 4 * i);
        }
    }
    match records.iter().find(|record| record[0] == b'I') {
        None => refused(6, bytes.len()),
        Some(first) => Ok(spelled(&records, first[1].into())),
    }
}

/// What is wrong with a record, given those before it, which are good.
fn fault(record: &[u8], before: &[&[u8]], states: usize) -> Option<u32> {
    let kind = record[0];
    let [one, two, three] = [record[1] as usize, record[2] as usize, record[3] as usize];
    match kind {
        b'I' | b'F' => {
            if two != 0 || three != 0 {
                return Some(3);
            }
            if one >= states {
                return Some(4);
            }
        }
        b'T' => {
            if one >= states || two >= LETTERS || three >= states {
                return Some(4);
            }
        }
        _ => return Some(2),
    }
    let again = before.iter().any(|earlier| match kind {
        b'I' => earlier[0] == b'I',
        _ => earlier == &record,
    });
    again.then_some(5)
}

fn spelled(records: &[&[u8]], initial: usize) -> Automaton {
    let mut automaton = Automaton { initial, accepting: 0, steps: [[0; STATES_OF_A]; LETTERS], states: 0 };
    for record in records {
        let [one, two, three] = [record[1] as usize, record[2] as usize, record[3] as usize];
        automaton.states = automaton.states.max(one + 1);
        match record[0] {
            b'F' => automaton.accepting |= 1 << one,
            b'T' => {
                automaton.steps[two][one] |= 1 << three;
                automaton.states = automaton.states.max(three + 1);
            }
            _ => {}
        }
    }
    automaton
}
