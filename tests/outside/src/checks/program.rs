//! The program: run in a folder of its own, its output compared byte by byte with the reference's.

use super::{Checked, Tally};
use crate::reference::program::{output, BYTES_THAT_COUNT};
use crate::text::{records, written};
use std::fs;
use std::path::PathBuf;
use std::process::Command;

pub struct Program {
    path: PathBuf,
    /// The program's working directory; nothing else is in it.
    folder: PathBuf,
    /// One in so many random pairs is also given to the program, since a process costs more than a call.
    every: u64,
}

impl Program {
    pub fn new(path: PathBuf, folder: PathBuf, every: u64) -> Checked<Program> {
        let path = path.canonicalize().map_err(|why| format!("no program at {}: {why}", path.display()))?;
        fs::create_dir_all(&folder).map_err(|why| format!("cannot make {}: {why}", folder.display()))?;
        Ok(Program { path, folder, every })
    }

    pub fn due(&self, case: u64) -> bool {
        // Divided by the number of families, so that each family gets its turn.
        (case / crate::drawn::FAMILIES.len() as u64) % self.every == 0
    }

    /// Runs the program on two files, of which each may be missing, and compares what it printed.
    pub fn check(&self, model: Option<&[u8]>, rule: Option<&[u8]>, tally: &mut Tally) -> Checked {
        self.place("model.rec", model)?;
        self.place("rule.rec", rule)?;
        let ran = Command::new(&self.path).current_dir(&self.folder).output();
        let ran = ran.map_err(|why| format!("cannot run {}: {why}", self.path.display()))?;
        tally.programs += 1;
        let should = output(model.unwrap_or(&[]), rule.unwrap_or(&[]));
        if !ran.status.success() || !ran.stderr.is_empty() || ran.stdout != should.as_bytes() {
            let is = String::from_utf8_lossy(&ran.stdout);
            let said = |file: Option<&[u8]>| file.map_or("missing".to_string(), written);
            return Err(format!(
                "the program ({}) printed\n{is}and should have printed\n{should}model: {}\nrule: {}",
                ran.status,
                said(model),
                said(rule)
            ));
        }
        Ok(())
    }

    fn place(&self, name: &str, bytes: Option<&[u8]>) -> Checked {
        let path = self.folder.join(name);
        let done = match bytes {
            Some(bytes) => fs::write(&path, bytes),
            None if path.exists() => fs::remove_file(&path),
            None => Ok(()),
        };
        done.map_err(|why| format!("cannot place {}: {why}", path.display()))
    }
}

/// Missing files, empty files, and files around the 16,456 bytes that count.
pub fn check_files(program: &Program, tally: &mut Tally) -> Checked {
    let all = records("I 0, F 0, T 0 0 0, T 0 1 0");
    let often = records("I 0, F 1, T 0 0 1, T 0 1 0, T 1 0 1, T 1 1 0");
    program.check(Some(&all), Some(&often), tally)?;
    program.check(None, None, tally)?;
    program.check(None, Some(&often), tally)?;
    program.check(Some(&all), None, tally)?;
    program.check(Some(&[]), Some(&often), tally)?;
    program.check(Some(&all), Some(&[]), tally)?;
    // Every record that A can have, 16,452 bytes, and then more: a repetition, a cut-off record, bytes that no longer count.
    let every: Vec<u8> = every_record();
    for length in BYTES_THAT_COUNT - 6..=BYTES_THAT_COUNT + 6 {
        for filler in [0, b'I', b'F', b'T'] {
            let mut file = every.clone();
            file.resize(length, filler);
            program.check(Some(&file), Some(&all), tally)?;
            program.check(Some(&all), Some(&file), tally)?;
        }
    }
    let long = every.repeat(3);
    program.check(Some(&long), Some(&often), tally)?;
    program.check(Some(&often), Some(&long), tally)?;
    // A folder in a file's place can be opened and not read: it counts as what was read of it, which is nothing.
    let folder = program.folder.join("rule.rec");
    program.check(Some(&all), None, tally)?;
    fs::create_dir(&folder).map_err(|why| why.to_string())?;
    let ran = Command::new(&program.path).current_dir(&program.folder).output().map_err(|why| why.to_string())?;
    fs::remove_dir(&folder).map_err(|why| why.to_string())?;
    tally.programs += 1;
    if ran.stdout != output(&all, &[]).as_bytes() {
        return Err("a folder named rule.rec is not read as an empty file".to_string());
    }
    Ok(())
}

fn every_record() -> Vec<u8> {
    let mut bytes = records("I 15");
    for q in 0..16 {
        bytes.extend([b'F', q, 0, 0]);
    }
    for p in 0..16 {
        for x in 0..16 {
            for q in 0..16 {
                bytes.extend([b'T', p, x, q]);
            }
        }
    }
    bytes
}
