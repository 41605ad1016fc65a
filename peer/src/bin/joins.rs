//! Joins pairs of plans by the library under test and by this package.
//!
//! Arguments: the number of pairs (30,000), the seed (1), the first pair's number
//! (0). Build with RD_LIB_DIR set to the directory of libreaperdecade.a. Exits
//! with 1 at the first difference, and where the calls did not include all
//! that they should. With PEER_TRACE set, each pair's number goes to standard
//! error before its calls.

#[cfg(rd_lib)]
fn main() -> std::process::ExitCode {
    use peer::joins::{run, Met, Settings};
    use peer::library::Library;

    let [pairs, seed, first_pair] = peer::arguments([30_000, 1, 0]);
    let settings = Settings {
        pairs,
        seed,
        first_pair,
        trace: std::env::var_os("PEER_TRACE").is_some(),
    };
    peer::ended(run(&settings, &Library), "calls", Met::missing)
}

#[cfg(not(rd_lib))]
fn main() -> std::process::ExitCode {
    eprintln!("built without RD_LIB_DIR: there is no library to compare with");
    std::process::ExitCode::from(2)
}
