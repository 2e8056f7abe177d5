//! `cases`: plays the requests of standard input as the gate's program of
//! that name does; exits with 1 where a line is no request.
use std::io::{self, Read, Write};
use std::process::ExitCode;

fn main() -> ExitCode {
    match play() {
        Ok(()) => ExitCode::SUCCESS,
        Err(what) => {
            eprintln!("cases: {what}");
            ExitCode::FAILURE
        }
    }
}

fn play() -> Result<(), String> {
    let failed = |error: io::Error| error.to_string();
    let mut requests = String::new();
    io::stdin().read_to_string(&mut requests).map_err(failed)?;
    let answers = model::cases::answers(&requests)?;
    io::stdout().write_all(answers.as_bytes()).map_err(failed)
}
