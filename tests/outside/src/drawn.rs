//! Random pairs of record files that are good: small and dense, sparse, up to 16 and 8 states, akin to each other, with
//! gaps in the numbers, states that can't be reached and letters that are dead in one of the two.

use crate::random::Random;

#[derive(Clone)]
struct Drawing {
    initial: u8,
    accepting: Vec<u8>,
    arrows: Vec<(u8, u8, u8)>,
}

/// How an automaton is drawn: its states and letters, how many arrows leave a state by a letter on average (in hundredths),
/// and the chance in percent of each F.
struct Manner {
    states: usize,
    letters: usize,
    arrows: usize,
    accepting: usize,
}

pub struct Pair {
    pub family: &'static str,
    pub model: Vec<u8>,
    pub rule: Vec<u8>,
    /// A period room that is plenty, or nearly so, and still leaves the walk short enough to be made many thousand times.
    pub period_room: usize,
}

pub const FAMILIES: [&str; 8] = ["dense", "sparse", "akin", "middle", "akin middle", "large", "letters", "bare"];

/// The pair of a case: the families take turns, so that each has its share of any run.
pub fn pair(random: &mut Random, case: u64) -> Pair {
    let family = FAMILIES[(case % FAMILIES.len() as u64) as usize];
    // States of the model, of the rule, letters; arrows of the model and of the rule.
    let (mut model, mut rule, period_room) = match family {
        "dense" => both(random, [4, 3, 3], [130, 160], 2_048),
        "sparse" => both(random, [6, 3, 3], [80, 110], 2_048),
        "akin" => akin(random, 3, 3, 2_048),
        "middle" => both(random, [9, 5, 3], [90, 130], 400),
        "akin middle" => akin(random, 5, 3, 400),
        "large" => both(random, [16, 8, 4], [75, 110], 250),
        "letters" => both(random, [5, 4, 16], [40, 110], 400),
        _ => both(random, [3, 2, 2], [50, 50], 2_048),
    };
    if random.percent(15) {
        drop_letter(random, &mut model, &mut rule);
    }
    if random.percent(30) {
        cut_off(random, &mut model, 16);
        cut_off(random, &mut rule, 8);
    }
    if random.percent(40) {
        spread(random, &mut model, &mut rule);
    }
    Pair { family, model: records(random, &model), rule: records(random, &rule), period_room }
}

/// Two automata drawn apart, of at most so many states of the model, states of the rule and letters. A rule that allows
/// little is soon broken, so it has more arrows and more accepting states than the model.
fn both(random: &mut Random, most: [usize; 3], arrows: [usize; 2], period_room: usize) -> (Drawing, Drawing, usize) {
    let letters = random.between(1, most[2]);
    let accepting = random.between(15, 60);
    let model =
        Manner { states: random.between(most[0].div_ceil(2), most[0]), letters, arrows: arrows[0] + random.below(60), accepting };
    let rule = Manner {
        states: random.between(most[1].div_ceil(2), most[1]),
        letters,
        arrows: arrows[1] + random.below(100),
        accepting: accepting + random.below(40),
    };
    (drawn(random, &model), drawn(random, &rule), period_room)
}

/// A rule, and a model that is the rule with something taken away; half the time a little is then added again.
fn akin(random: &mut Random, states: usize, letters: usize, period_room: usize) -> (Drawing, Drawing, usize) {
    let manner = Manner {
        states: random.between(2, states),
        letters: random.between(1, letters),
        arrows: random.between(110, 190),
        accepting: 45,
    };
    let rule = drawn(random, &manner);
    let mut model = rule.clone();
    model.arrows.retain(|_| random.percent(95));
    model.accepting.retain(|_| random.percent(80));
    if random.percent(50) {
        model.arrows.push((
            random.below(manner.states) as u8,
            random.below(manner.letters) as u8,
            random.below(manner.states) as u8,
        ));
        model.arrows.sort_unstable();
        model.arrows.dedup();
    }
    (model, rule, period_room)
}

fn drawn(random: &mut Random, manner: &Manner) -> Drawing {
    let mut arrows = vec![];
    for p in 0..manner.states as u8 {
        for x in 0..manner.letters as u8 {
            for q in 0..manner.states as u8 {
                if random.percent(manner.arrows / manner.states) {
                    arrows.push((p, x, q));
                }
            }
        }
    }
    let mut accepting: Vec<u8> = (0..manner.states as u8).filter(|_| random.percent(manner.accepting)).collect();
    if accepting.is_empty() && random.percent(90) {
        accepting.push(random.below(manner.states) as u8);
    }
    Drawing { initial: random.below(manner.states) as u8, accepting, arrows }
}

/// Makes one letter dead in one of the two.
fn drop_letter(random: &mut Random, model: &mut Drawing, rule: &mut Drawing) {
    let side = if random.percent(50) { model } else { rule };
    let dead = random.below(4) as u8;
    side.arrows.retain(|&(_, x, _)| x != dead);
}

/// Adds states that nothing leads to, with arrows out of them, between them and F records of their own.
fn cut_off(random: &mut Random, drawing: &mut Drawing, limit: usize) {
    let first = 1 + named(drawing).max().unwrap_or(0) as usize;
    let end = limit.min(first + random.between(1, 3));
    for p in first..end {
        for _ in 0..3 {
            drawing.arrows.push((p as u8, random.below(4) as u8, random.below(end) as u8));
        }
        if random.percent(60) {
            drawing.accepting.push(p as u8);
        }
    }
    drawing.arrows.sort_unstable();
    drawing.arrows.dedup();
}

/// Numbers states and letters anew, with gaps up to the largest numbers; the letters alike in both.
fn spread(random: &mut Random, model: &mut Drawing, rule: &mut Drawing) {
    let (states_of_a, states_of_b, letters) = (numbering(random, 16), numbering(random, 8), numbering(random, 16));
    renumber(model, &states_of_a, &letters);
    renumber(rule, &states_of_b, &letters);
}

fn numbering(random: &mut Random, end: u8) -> Vec<u8> {
    let mut numbers: Vec<u8> = (0..end).collect();
    random.shuffle(&mut numbers);
    numbers
}

fn renumber(drawing: &mut Drawing, states: &[u8], letters: &[u8]) {
    drawing.initial = states[drawing.initial as usize];
    for q in &mut drawing.accepting {
        *q = states[*q as usize];
    }
    for (p, x, q) in &mut drawing.arrows {
        (*p, *x, *q) = (states[*p as usize], letters[*x as usize], states[*q as usize]);
    }
}

fn named(drawing: &Drawing) -> impl Iterator<Item = u8> + '_ {
    let ends = drawing.arrows.iter().flat_map(|&(p, _, q)| [p, q]);
    ends.chain(drawing.accepting.iter().copied()).chain([drawing.initial])
}

/// "Records come in any order."
fn records(random: &mut Random, drawing: &Drawing) -> Vec<u8> {
    let mut list = vec![[b'I', drawing.initial, 0, 0]];
    list.extend(drawing.accepting.iter().map(|&q| [b'F', q, 0, 0]));
    list.extend(drawing.arrows.iter().map(|&(p, x, q)| [b'T', p, x, q]));
    random.shuffle(&mut list);
    list.concat()
}

/// A stem and a period that mostly follow a path of the automaton, the period often back to where it began: words drawn
/// blindly are nearly all rejected, and show little.
pub fn lasso_of(random: &mut Random, records: &[u8], longest: usize) -> (Vec<u8>, Vec<u8>) {
    let initial = records.chunks(4).find(|record| record[0] == b'I').map_or(0, |record| record[1]);
    let stem_length = random.below(longest);
    let (stem, places) = path(random, records, initial, stem_length);
    let start = *places.last().unwrap_or(&initial);
    let period_length = random.below(longest);
    let (mut period, places) = path(random, records, start, period_length);
    if let (Some(back), true) = (places.iter().rposition(|&q| q == start), random.percent(80)) {
        period.truncate(back + 1);
    }
    (stem, period)
}

/// A word and the state after each of its letters; where no arrow leads on, any letter.
fn path(random: &mut Random, records: &[u8], from: u8, length: usize) -> (Vec<u8>, Vec<u8>) {
    let (mut word, mut places, mut at) = (vec![], vec![], from);
    for _ in 0..length {
        let out: Vec<&[u8]> = records.chunks(4).filter(|record| record[0] == b'T' && record[1] == at).collect();
        let arrow = if out.is_empty() {
            [b'T', at, random.below(16) as u8, at]
        } else {
            random.one_of(&out).try_into().expect("a record")
        };
        at = arrow[3];
        word.push(arrow[2]);
        places.push(at);
    }
    (word, places)
}
