//! Records to an automaton in one pass: a record that was there before is found in the table itself.

use outside::reference::records::{Automaton, Refusal, LETTERS, STATES_OF_A};

pub fn read(bytes: &[u8], states: usize) -> Result<Automaton, Refusal> {
    let refused = |number, place| Err(Refusal { number, place });
    let mut read = Automaton { initial: 0, accepting: 0, steps: [[0; STATES_OF_A]; LETTERS], states: 0 };
    let mut started = false;
    if bytes.len() % 4 != 0 {
        return refused(1, bytes.len() / 4 * 4);
    }
    for (i, record) in bytes.chunks_exact(4).enumerate() {
        let [one, two, three] = [record[1] as usize, record[2] as usize, record[3] as usize];
        let again = match record[0] {
            b'T' if one >= states || two >= LETTERS || three >= states => return refused(4, 4 * i),
            b'T' => {
                let before = read.steps[two][one];
                read.steps[two][one] |= 1 << three;
                read.states = read.states.max(three + 1);
                before == read.steps[two][one]
            }
            b'I' | b'F' if two != 0 || three != 0 => return refused(3, 4 * i),
            b'I' | b'F' if one >= states => return refused(4, 4 * i),
            b'F' => {
                let before = read.accepting;
                read.accepting |= 1 << one;
                before == read.accepting
            }
            b'I' => {
                read.initial = one;
                std::mem::replace(&mut started, true)
            }
            _ => return refused(2, 4 * i),
        };
        if again {
            return refused(5, 4 * i);
        }
        read.states = read.states.max(one + 1);
    }
    if started {
        Ok(read)
    } else {
        refused(6, bytes.len())
    }
}
