//! Asks the library under test for the lines in words of many answers.
//!
//! Arguments: the number of answers (20,000) and the seed (1). Build with
//! RD_LIB_DIR set to the directory of libreaperdecade.a. Exits with 1 at the
//! first line or call that is wrong, and where the answers did not include all
//! that they should. With PEER_TRACE set, each answer goes to standard error
//! before its calls.

#[cfg(rd_lib)]
fn main() -> std::process::ExitCode {
    use peer::library::Library;
    use peer::lines::{run, Met, Settings};

    let [answers, seed] = peer::arguments([20_000, 1]);
    let settings = Settings {
        seed,
        answers,
        trace: std::env::var_os("PEER_TRACE").is_some(),
    };
    peer::ended(run(&settings, &Library), "answers", Met::missing)
}

#[cfg(not(rd_lib))]
fn main() -> std::process::ExitCode {
    eprintln!("built without RD_LIB_DIR: there is no library to compare with");
    std::process::ExitCode::from(2)
}
