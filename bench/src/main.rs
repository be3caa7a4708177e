//! Times the proved library and the fast implementation on the same pairs, in one run, on one machine. `bench/run` builds
//! and calls this. Both get the same lent tables, and every answer and every lent element is compared before it is timed.

use bench::clock::processor_time;
use bench::fast::Fast;
use outside::drawn::pair;
use outside::lent::{Lengths, Lent};
use outside::library;
use outside::random::Random;
use outside::reference::decide::{decide, Answer, LARGEST_P};
use std::path::{Path, PathBuf};
use std::process::ExitCode;
use std::time::Duration;

/// A pair of files and the room that it is run with.
#[derive(Clone)]
struct Case {
    name: String,
    model: Vec<u8>,
    rule: Vec<u8>,
    stem_room: u64,
    period_room: u64,
}

/// Each of the two is run for this long on each pair, and at least three times; the shortest run counts.
const LONG_ENOUGH: Duration = Duration::from_millis(300);

fn main() -> ExitCode {
    match run() {
        Ok(()) => ExitCode::SUCCESS,
        Err(why) => {
            eprintln!("bench: {why}");
            ExitCode::FAILURE
        }
    }
}

fn run() -> Result<(), String> {
    let words: Vec<String> = std::env::args().skip(1).collect();
    let pairs = PathBuf::from(words.first().ok_or("the first word is the folder of pairs")?);
    let cleared = words.iter().any(|word| word == "--cleared");
    let growth = words.iter().any(|word| word == "--growth");
    if let Some(unknown) = words[1..].iter().find(|word| !["--cleared", "--growth"].contains(&word.as_str())) {
        return Err(format!("{unknown} is unknown; options: --cleared, --growth"));
    }
    equal_on_random_pairs(4_000)?;
    println!("The fast implementation left every lent element as the reference does on 4,000 random pairs, each at three rooms.");
    println!(
        "A time is the processor's for a whole call, from the records to the tables handed back: the shortest of three runs or"
    );
    println!("more, {} ms in all. {}", LONG_ENOUGH.as_millis(), buffers(cleared));
    println!();
    println!(
        "{:<10} {:>15} {:>5} {:>5} {:>6} {:>9} {:>11} {:>12} {:>12} {:>6} {:>14} {:>14}",
        "pair", "answer", "u", "w", "p", "t", "candidates", "library µs", "fast µs", "ratio", "library cand/s", "fast cand/s"
    );
    for case in cases(&pairs)? {
        if !growth {
            timed(&case, cleared)?;
        } else if case.period_room == LARGEST_P {
            for period_room in [LARGEST_P / 4, LARGEST_P / 2, LARGEST_P] {
                timed(&Case { period_room, ..case.clone() }, cleared)?;
            }
        }
    }
    Ok(())
}

fn buffers(cleared: bool) -> &'static str {
    if cleared {
        "The lent tables were filled anew before each run, outside the time."
    } else {
        "The lent tables were not cleared between runs: a call finds what the one before it left."
    }
}

/// The pairs of the folder by name. A file `room` has S and P where they are not the program's 4,096 and 2,048.
fn cases(folder: &Path) -> Result<Vec<Case>, String> {
    let said = |path: &Path, why: std::io::Error| format!("{}: {why}", path.display());
    let listed = std::fs::read_dir(folder).map_err(|why| said(folder, why))?;
    let mut folders: Vec<PathBuf> = listed.filter_map(|entry| Some(entry.ok()?.path())).filter(|path| path.is_dir()).collect();
    folders.sort();
    let read = |path: PathBuf| std::fs::read(&path).map_err(|why| said(&path, why));
    let mut cases = vec![];
    for path in folders {
        let text = std::fs::read_to_string(path.join("room")).unwrap_or("4096 2048".to_string());
        let numbers: Vec<u64> = text.split_whitespace().filter_map(|word| word.parse().ok()).collect();
        let [stem_room, period_room] = numbers[..] else {
            return Err(format!("{}/room: two numbers, S and P", path.display()));
        };
        let name = path.file_name().map_or(String::new(), |name| name.to_string_lossy().into_owned());
        cases.push(Case {
            name,
            model: read(path.join("model.rec"))?,
            rule: read(path.join("rule.rec"))?,
            stem_room,
            period_room,
        });
    }
    Ok(cases)
}

fn timed(case: &Case, cleared: bool) -> Result<(), String> {
    let Case { name, model, rule, stem_room, period_room } = case;
    let mut fast = Fast::default();
    let fresh = Lent::new(Lengths::least(*stem_room, *period_room), 1);
    let (mut by_library, mut by_fast) = (fresh.clone(), fresh.clone());
    library::decide(model, rule, *stem_room, *period_room, &mut by_library);
    let answer = fast.decide(model, rule, *stem_room, *period_room, &mut by_fast);
    if let Some(difference) = by_library.difference(&by_fast) {
        return Err(format!("{name}: the library differs from the fast implementation: {difference}"));
    }
    let (mut library_best, mut fast_best) = (Duration::MAX, Duration::MAX);
    let (mut library_total, mut fast_total) = (Duration::ZERO, Duration::ZERO);
    let mut runs = 0;
    // In turn, so that whatever else the machine does falls on both; the quicker one keeps running until both had their time.
    while runs < 3 || library_total < LONG_ENOUGH || fast_total < LONG_ENOUGH {
        if runs < 3 || library_total < LONG_ENOUGH {
            let took = one_run(&mut by_library, &fresh, cleared, |lent| {
                library::decide(model, rule, *stem_room, *period_room, lent).into()
            });
            library_best = shorter(library_best, took);
            library_total += took;
        }
        if runs < 3 || fast_total < LONG_ENOUGH {
            let took =
                one_run(&mut by_fast, &fresh, cleared, |lent| fast.decide(model, rule, *stem_room, *period_room, lent).number);
            fast_best = shorter(fast_best, took);
            fast_total += took;
        }
        runs += 1;
    }
    print_row(name, &answer, fast.candidates, library_best, fast_best);
    Ok(())
}

/// The clock of a thread sometimes shows no time for a call of microseconds; such a reading says nothing.
fn shorter(best: Duration, took: Duration) -> Duration {
    if took.is_zero() {
        return best;
    }
    best.min(took)
}

fn one_run(lent: &mut Lent, fresh: &Lent, cleared: bool, decide: impl FnOnce(&mut Lent) -> u64) -> Duration {
    if cleared {
        lent.clone_from(fresh);
    }
    let started = processor_time();
    std::hint::black_box(decide(lent));
    processor_time() - started
}

fn print_row(name: &str, answer: &Answer, candidates: u64, library: Duration, fast: Duration) {
    let Answer { number, u, w, p, t, period_length, .. } = *answer;
    let said = match number {
        0 if period_length > 0 => "not included".to_string(),
        0 => "included".to_string(),
        number => format!("refused {number}"),
    };
    let micros = |time: Duration| time.as_secs_f64() * 1e6;
    let rate = |time: Duration| candidates as f64 / time.as_secs_f64();
    println!(
        "{name:<10} {said:>15} {u:>5} {w:>5} {p:>6} {t:>9} {candidates:>11} {:>12.1} {:>12.1} {:>6.2} {:>14.0} {:>14.0}",
        micros(library),
        micros(fast),
        library.as_secs_f64() / fast.as_secs_f64(),
        rate(library),
        rate(fast),
    );
}

/// The fast implementation against the reference, element by element, with plenty of room and where it is short.
fn equal_on_random_pairs(count: u64) -> Result<(), String> {
    let mut fast = Fast::default();
    for number in 0..count {
        let mut random = Random::of(0xbe_4c4, number);
        let mut drawn = pair(&mut random, number);
        if number % 10 == 0 {
            let file = if random.percent(50) { &mut drawn.model } else { &mut drawn.rule };
            let place = random.below(file.len());
            file[place] = random.bits() as u8;
        }
        let rooms = [(4_096, drawn.period_room), (random.between(1, 12), drawn.period_room), (4_096, random.between(1, 20))];
        for (stem_room, period_room) in rooms {
            let (stem_room, period_room) = (stem_room as u64, period_room as u64);
            let mut wanted = Lent::new(Lengths::least(stem_room, period_room).longer(|| random.below(3)), number);
            let mut lent = wanted.clone();
            decide(&drawn.model, &drawn.rule, stem_room, period_room, &mut wanted);
            fast.decide(&drawn.model, &drawn.rule, stem_room, period_room, &mut lent);
            if let Some(difference) = lent.difference(&wanted) {
                return Err(format!("the fast implementation differs from the reference on pair {number} at S={stem_room} P={period_room}: {difference}"));
            }
        }
    }
    Ok(())
}
