//! `straddles FILE..` runs the straddling check on event files: prints how
//! often each situation was reached, or the first difference and exits with 1.
use model::{reached, straddle_check};
use std::process::ExitCode;

fn main() -> ExitCode {
    reached::program("straddles", straddle_check::file, straddle_check::reached())
}
