//! Makes lists of calls on blocks of the tick timer, of the library under test
//! and of this package's model, and steps lanes by the library's timer.
//!
//! Arguments: the number of lists (200,000), the seed (1), the first list's
//! number (0). Build with RD_LIB_DIR set to the directory of
//! libreaperdecade.a. Exits with 1 at the first difference, and where the calls
//! did not include all that they should. With PEER_TRACE set, each list's
//! number goes to standard error before its calls.

#[cfg(rd_lib)]
fn main() -> std::process::ExitCode {
    use peer::library::Library;
    use peer::timers::{run, Asked, Met, Settings};

    let [lists, seed, first_list] = peer::arguments([200_000, 1, 0]);
    let settings = Settings {
        lists,
        seed,
        first_list,
        asked: Asked::All,
        trace: std::env::var_os("PEER_TRACE").is_some(),
    };
    peer::ended(run(&settings, &Library, &Library), "calls", Met::missing)
}

#[cfg(not(rd_lib))]
fn main() -> std::process::ExitCode {
    eprintln!("built without RD_LIB_DIR: there is no library to compare with");
    std::process::ExitCode::from(2)
}
