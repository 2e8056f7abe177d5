//! `ports FILE..` plays event files by the model with port accesses among
//! their calls: prints how often each situation was reached, or the first
//! difference and exits with 1.
use model::{port_check, reached};
use std::process::ExitCode;

fn main() -> ExitCode {
    reached::program("ports", port_check::file, port_check::reached())
}
