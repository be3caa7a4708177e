//! Runs every check from outside and stops at the first difference. `tests/outside/run` builds and calls this.

use outside::checks::program::{self, Program};
use outside::checks::{damaged, lassos, pairs, room, samples, Checked, Tally};
use outside::drawn::{Pair, FAMILIES};
use std::path::{Path, PathBuf};
use std::process::ExitCode;
use std::time::Instant;

/// What the command line asks for.
struct Options {
    root: PathBuf,
    program: PathBuf,
    pairs: u64,
    damaged: u64,
    seed: u64,
    only: Option<u64>,
    program_every: u64,
}

const USAGE: &str = "options: --pairs N, --damaged N, --seed N, --only PAIR, --program-every N";

fn options() -> Checked<Options> {
    let mut words = std::env::args().skip(1);
    let root = PathBuf::from(words.next().ok_or("the first word is the repository's folder")?);
    let program = root.join("crates/wickerbell/out/wickerbell");
    let mut options = Options { root, program, pairs: 20_000, damaged: 5_000, seed: 1, only: None, program_every: 4 };
    while let Some(word) = words.next() {
        let value = words.next().ok_or(format!("{word} needs a value; {USAGE}"))?;
        let number = || value.parse::<u64>().map_err(|_| format!("{word} takes a number, not {value}"));
        match word.as_str() {
            "--pairs" => options.pairs = number()?,
            "--damaged" => options.damaged = number()?,
            "--seed" => options.seed = number()?,
            "--only" => options.only = Some(number()?),
            "--program-every" => options.program_every = number()?.max(1),
            "--program" => options.program = PathBuf::from(&value),
            _ => return Err(format!("{word} is unknown; {USAGE}")),
        }
    }
    Ok(options)
}

fn main() -> ExitCode {
    match run() {
        Ok(0) => ExitCode::SUCCESS,
        Ok(differences) => {
            println!("outside: {differences} of the checks found a difference");
            ExitCode::FAILURE
        }
        Err(why) => {
            eprintln!("outside: {why}");
            ExitCode::FAILURE
        }
    }
}

/// The checks in turn, each to its end or its first difference, so that one fault shows in every check that it touches.
struct Run {
    started: Instant,
    tally: Tally,
    differences: u64,
}

impl Run {
    fn check(&mut self, what: &str, check: impl FnOnce(&mut Tally) -> Checked) {
        match check(&mut self.tally) {
            Ok(()) => println!("outside: {what}: no difference ({:.1} s)", self.started.elapsed().as_secs_f64()),
            Err(difference) => {
                println!("DIFFERENCE in {what}: {difference}");
                self.differences += 1;
            }
        }
    }
}

fn run() -> Checked<u64> {
    let options = options()?;
    let folder = options.root.join("target/outside");
    let program = Program::new(options.program.clone(), folder.join("room"), options.program_every)?;
    let mut run = Run { started: Instant::now(), tally: Tally::default(), differences: 0 };
    let seed = options.seed;
    println!("outside: seed {seed}");
    if let Some(case) = options.only {
        run.check(&format!("pair {case}"), |tally| one_pair(&options, case, &folder, &program, tally));
        return Ok(run.differences);
    }
    run.check("M1 to M13 and the shortcuts", |tally| samples::check(&options.root.join("samples"), tally));
    run.check("S and P around their limits", room::check_ranges);
    run.check("every length around its limit", room::check_lengths);
    run.check("1 to 6 before 7", room::check_order);
    run.check("the lasso test's refusals", lassos::check_known);
    run.check("words of a million letters", lassos::check_long);
    run.check("2000 random lassos", |tally| lassos::check_random(seed, 2_000, tally));
    run.check("the program's files", |tally| program::check_files(&program, tally));
    run.check("1440 files with one fault", |tally| damaged::check_each(seed, &program, tally));
    run.check(&format!("{} pairs of files with several faults", options.damaged), |tally| {
        damaged::check_mixed(seed, options.damaged, &program, tally)
    });
    run.check("the hard pairs of bench/", |tally| pairs::check_hard(&options.root.join("bench/pairs"), tally));
    run.check(&format!("{} random pairs", options.pairs), |tally| {
        (0..options.pairs).try_for_each(|case| one_pair(&options, case, &folder, &program, tally))
    });
    summary(&run.tally);
    Ok(run.differences)
}

/// One pair; a difference names the pair, the command that draws it again, and where its files are.
fn one_pair(options: &Options, case: u64, folder: &Path, program: &Program, tally: &mut Tally) -> Checked {
    pairs::check(options.seed, case, program, tally).map_err(|what| {
        let Pair { model, rule, .. } = pairs::of_case(options.seed, case);
        let kept = folder.join("different");
        let saved = std::fs::create_dir_all(&kept)
            .and_then(|()| std::fs::write(kept.join("model.rec"), model))
            .and_then(|()| std::fs::write(kept.join("rule.rec"), rule));
        let files = match saved {
            Ok(()) => format!("its files are in {}", kept.display()),
            Err(why) => format!("its files could not be kept: {why}"),
        };
        let family = FAMILIES[(case % FAMILIES.len() as u64) as usize];
        format!("pair {case} ({family}): {what}\nagain: tests/outside/run --seed {} --only {case}; {files}", options.seed)
    })
}

fn summary(tally: &Tally) {
    let Tally { decided, answers, shown, lassos, programs, by_classes, by_ranks, included } = tally;
    println!(
        "outside: {decided} calls of decide compared in every element, {lassos} lasso tests, {programs} runs of the program"
    );
    let numbers: Vec<String> = (0..10).map(|n| format!("{n}: {}", answers[n])).collect();
    println!("outside: answers by number {}; {shown} lassos shown, each held to the product graph", numbers.join(", "));
    println!("outside: {included} pairs included; verdicts held to all classes {by_classes} times, to rankings {by_ranks} times");
}
