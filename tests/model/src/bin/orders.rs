//! `orders FILE..` takes orders while it plays event files by the model and
//! commits by them: prints how often each situation was reached, or the first
//! difference and exits with 1.
use model::{order_check, reached};
use std::process::ExitCode;

fn main() -> ExitCode {
    reached::program("orders", order_check::file, order_check::reached())
}
