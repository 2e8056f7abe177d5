//! `pages FILE..` plays event files by the model and holds their pages
//! against the ledger: prints how often each situation was reached, or the
//! first difference and exits with 1.
use model::{page_check, reached};
use std::process::ExitCode;

fn main() -> ExitCode {
    reached::program("pages", page_check::file, page_check::reached())
}
