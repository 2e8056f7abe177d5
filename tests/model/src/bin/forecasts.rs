//! `forecasts FILE..` plays event files by the model and holds forecasts
//! against calls: prints how often each situation was reached, or the first
//! difference and exits with 1.
use model::{forecast_check, reached};
use std::process::ExitCode;

fn main() -> ExitCode {
    reached::program("forecasts", forecast_check::file, forecast_check::reached())
}
