//! How a program that compares ends.

use std::fmt::Display;
use std::process::ExitCode;

/// Prints the first difference, or what was met, which must be enough: what
/// is missing of it is told as not included in the `asked`, say the images.
pub fn ended<M: Display, D: Display>(
    ran: Result<M, D>,
    asked: &str,
    missing: impl Fn(&M) -> Vec<String>,
) -> ExitCode {
    let met = match ran {
        Ok(met) => met,
        Err(difference) => {
            print!("{difference}");
            return ExitCode::FAILURE;
        }
    };
    print!("{met}");
    println!("no difference");
    let missing = missing(&met);
    for what in &missing {
        eprintln!("the {asked} did not include {what}");
    }
    if missing.is_empty() {
        ExitCode::SUCCESS
    } else {
        ExitCode::FAILURE
    }
}
