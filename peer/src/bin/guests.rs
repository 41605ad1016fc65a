//! Asks of pairs of plans, by the library under test, whether one guest's changes
//! show in another.
//!
//! Arguments: the number of pairs (60,000), the seed (1), the first pair's number
//! (0). Build with RD_LIB_DIR set to the directory of libreaperdecade.a. Exits
//! with 1 at the first difference, and where the pairs did not include all
//! that they should. With PEER_TRACE set, each pair's number goes to standard
//! error before its calls.

#[cfg(rd_lib)]
fn main() -> std::process::ExitCode {
    use peer::guests::{run, Asked, Met, Settings};
    use peer::library::Library;

    let [pairs, seed, first_pair] = peer::arguments([60_000, 1, 0]);
    let settings = Settings {
        pairs,
        seed,
        first_pair,
        asked: Asked::All,
        trace: std::env::var_os("PEER_TRACE").is_some(),
    };
    peer::ended(run(&settings, &Library), "pairs", Met::missing)
}

#[cfg(not(rd_lib))]
fn main() -> std::process::ExitCode {
    eprintln!("built without RD_LIB_DIR: there is no library to ask");
    std::process::ExitCode::from(2)
}
