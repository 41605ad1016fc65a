//! Makes lists of calls on drafts of the library under test and of this
//! package's model.
//!
//! Arguments: the number of drafts (160), the seed (1), the first draft's
//! number (0). Build with RD_LIB_DIR set to the directory of
//! libreaperdecade.a. Exits with 1 at the first difference, and where the calls
//! did not include all that they should. With PEER_TRACE set, each draft's
//! number goes to standard error before its calls.

#[cfg(rd_lib)]
fn main() -> std::process::ExitCode {
    use peer::drafts::{run, Met, Settings};
    use peer::library::Library;

    let [drafts, seed, first_draft] = peer::arguments([160, 1, 0]);
    let settings = Settings {
        drafts,
        seed,
        first_draft,
        all_places: true,
        trace: std::env::var_os("PEER_TRACE").is_some(),
    };
    peer::ended(run(&settings, &Library), "calls", Met::missing)
}

#[cfg(not(rd_lib))]
fn main() -> std::process::ExitCode {
    eprintln!("built without RD_LIB_DIR: there is no library to compare with");
    std::process::ExitCode::from(2)
}
