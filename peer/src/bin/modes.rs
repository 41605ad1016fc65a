//! Makes shifts of up to eight plans, of the library under test and of this
//! package's model, and asks the claims of runs of what the library shows.
//!
//! Arguments: the number of shifts (40,000), the seed (1), the first shift's
//! number (0). Build with RD_LIB_DIR set to the directory of
//! libreaperdecade.a. Exits with 1 at the first difference, and where the calls
//! did not include all that they should. With PEER_TRACE set, each shift's
//! number goes to standard error before its calls.

#[cfg(rd_lib)]
fn main() -> std::process::ExitCode {
    use peer::library::Library;
    use peer::modes::{run, Asked, Met, Settings};

    let [shifts, seed, first_shift] = peer::arguments([40_000, 1, 0]);
    let settings = Settings {
        shifts,
        seed,
        first_shift,
        asked: Asked::All,
        trace: std::env::var_os("PEER_TRACE").is_some(),
    };
    peer::ended(run(&settings, &Library), "calls", Met::missing)
}

#[cfg(not(rd_lib))]
fn main() -> std::process::ExitCode {
    eprintln!("built without RD_LIB_DIR: there is no library to compare with");
    std::process::ExitCode::from(2)
}
