//! How often a check reached each situation that it has to reach.

use std::collections::BTreeMap;
use std::process::ExitCode;
use std::{env, fs};

pub struct Reached(BTreeMap<&'static str, u32>);

impl Reached {
    pub(crate) fn none_of(situations: &[&'static str]) -> Reached {
        Reached(situations.iter().map(|name| (*name, 0)).collect())
    }

    pub fn counts(&self) -> impl Iterator<Item = (&'static str, u32)> + '_ {
        self.0.iter().map(|(name, count)| (*name, *count))
    }

    pub(crate) fn note(&mut self, situation: &str) {
        let count = self.0.get_mut(situation);
        *count.expect("a situation of the list") += 1;
    }

    pub(crate) fn note_if(&mut self, holds: bool, situation: &str) {
        if holds {
            self.note(situation);
        }
    }
}

/// A check of an event file with a seed; the first difference is an error.
pub type Check = fn(&[u8], u64, &mut Reached) -> Result<(), String>;

/// The program of a check: plays the files that its arguments name and prints
/// the counts, or the first difference and exits with 1.
pub fn program(name: &str, check: Check, mut reached: Reached) -> ExitCode {
    let files: Vec<String> = env::args().skip(1).collect();
    if files.is_empty() {
        eprintln!("use: {name} FILE..");
        return ExitCode::from(2);
    }
    for (seed, file) in (0..).zip(files) {
        let input = match fs::read(&file) {
            Ok(input) => input,
            Err(error) => {
                eprintln!("{file}: {error}");
                return ExitCode::from(2);
            }
        };
        if let Err(difference) = check(&input, seed, &mut reached) {
            println!("{file}: {difference}");
            return ExitCode::FAILURE;
        }
    }
    for (situation, count) in reached.counts() {
        println!("{count:8} {situation}");
    }
    ExitCode::SUCCESS
}
