//! Runs this implementation beside the library under test.
//!
//! Arguments: the number of images (20000), the seed (1), the first image's
//! number (0). Build with RD_LIB_DIR set to the directory of
//! libreaperdecade.a. Exits with 1 on the first difference, and where the calls
//! for gate lists did not include what they should, for which a few images are
//! too few. With PEER_TRACE set, each image's number goes to standard error
//! before its calls.

#[cfg(rd_lib)]
fn main() -> std::process::ExitCode {
    use peer::boundary::Peer;
    use peer::harness::{run, Settings};
    use peer::library::Library;

    let [cases, seed, first_case] = peer::arguments([20_000, 1, 0]);
    let settings = Settings {
        cases,
        seed,
        first_case,
        large: true,
        trace: std::env::var_os("PEER_TRACE").is_some(),
    };
    match run(&settings, &Peer, &Library) {
        Err(difference) => {
            print!("{difference}");
            std::process::ExitCode::FAILURE
        }
        Ok(summary) => report(&summary),
    }
}

#[cfg(rd_lib)]
fn report(summary: &peer::harness::Summary) -> std::process::ExitCode {
    println!("mutants by the question that refuses them first:");
    print!("{}", summary.mutants);
    let rare = summary.mutants.rare();
    if !rare.is_empty() {
        println!("below 1 % of the mutants: {rare:?}");
    }
    let (mutants, others) = (summary.mutants.total(), summary.others.total());
    println!("{} images, {mutants} of them mutants", mutants + others);
    print!("gate lists by number: {}", summary.gates);
    println!("{:?}", summary.calls);
    println!("{} calls, no difference", summary.calls.total());
    let missing = summary.gates.missing();
    for what in &missing {
        eprintln!("the images did not include {what}");
    }
    match missing.is_empty() {
        true => std::process::ExitCode::SUCCESS,
        false => std::process::ExitCode::FAILURE,
    }
}

#[cfg(not(rd_lib))]
fn main() -> std::process::ExitCode {
    eprintln!("built without RD_LIB_DIR: there is no library to compare with");
    std::process::ExitCode::from(2)
}
