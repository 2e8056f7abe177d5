//! `generate SEED LINES [MIX]` prints an event file. Without MIX it is one
//! for the comparison; MIX is mixed, commit, fault, read or chain,
//! for the benchmark.
use model::{generate, mixes};
use std::io::{self, Write};
use std::process::ExitCode;

fn main() -> ExitCode {
    let arguments: Vec<String> = std::env::args().skip(1).collect();
    let file = match arguments.iter().map(String::as_str).collect::<Vec<_>>()[..] {
        [seed, lines] => seed
            .parse()
            .ok()
            .zip(lines.parse().ok())
            .map(|(s, l)| generate::events(s, l)),
        [seed, lines, mix] => seed
            .parse()
            .ok()
            .zip(lines.parse().ok())
            .and_then(|(s, l)| mixes::events(s, l, mix)),
        _ => None,
    };
    let Some(file) = file else {
        eprintln!("use: generate SEED LINES [mixed|commit|fault|read|chain]");
        return ExitCode::from(2);
    };
    match io::stdout().write_all(&file) {
        Ok(()) => ExitCode::SUCCESS,
        Err(_) => ExitCode::FAILURE,
    }
}
