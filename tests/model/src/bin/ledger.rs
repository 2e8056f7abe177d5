//! `ledger FILE..` plays event files by the model and checks every call
//! against the ledger: prints `ok`, or the first difference and exits with 1.
use std::{env, fs, process::ExitCode};

fn main() -> ExitCode {
    let names: Vec<String> = env::args().skip(1).collect();
    if names.is_empty() {
        eprintln!("use: ledger FILE..");
        return ExitCode::from(2);
    }
    for name in names {
        let input = match fs::read(&name) {
            Ok(input) => input,
            Err(error) => {
                eprintln!("{name}: {error}");
                return ExitCode::from(2);
            }
        };
        if let Err(difference) = model::check::file(&input) {
            println!("{name}: {difference}");
            return ExitCode::FAILURE;
        }
    }
    println!("ok");
    ExitCode::SUCCESS
}
