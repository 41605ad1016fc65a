//! Runs small plans and asks every claim of the paper's section 'Runs', then
//! breaks plans and sees that a claim fails.
//!
//! Arguments: the number of plans (1000), the seed (1), the first plan's
//! number (0). Built with RD_LIB_DIR set, it runs the library beside this
//! package's own tables and steps, and compares. Exits with 1 on the first
//! failure, which it prints with the plan.

use std::process::ExitCode;

use peer::boundary::{Boundary, Peer};
use peer::simulate::{simulate, survey, Noticed, Settings, Summary, Survey, FACTS, QUESTIONS};

fn main() -> ExitCode {
    let [plans, seed, first_plan] = peer::arguments([1_000, 1, 0]);
    let settings = Settings {
        seed,
        first_plan,
        plans,
    };
    let all: Vec<&dyn Boundary> = vec![
        &Peer,
        #[cfg(rd_lib)]
        &peer::library::Library,
    ];
    println!("implementations: {}", all.len());
    let found = simulate(&settings, &all).map(print_summary);
    let found = found.and_then(|()| survey(&settings).map(print_survey));
    match found {
        Ok(()) => ExitCode::SUCCESS,
        Err(failure) => {
            print!("{failure}");
            ExitCode::FAILURE
        }
    }
}

fn print_summary(summary: Summary) {
    let Summary {
        plans, runs, calls, ..
    } = summary;
    println!("plans: {plans}, runs: {runs}, calls: {calls}");
    println!("  at ends  at all cuts and choices");
    for (fact, name) in FACTS {
        let (at_end, all) = (summary.at_end.of(fact), summary.tally.of(fact));
        println!("{at_end:9} {all:11}  {name}");
    }
}

fn print_survey(survey: Survey) {
    print_noticed("plans broken by one tick", survey.by_a_tick);
    print_noticed("plans broken by an aimed change", survey.by_aim);
}

fn print_noticed(title: &str, noticed: [Noticed; QUESTIONS.len()]) {
    println!("{title}");
    println!("question  broken  noticed  with equal clocks  E or limit 0  harmless");
    for (question, found) in QUESTIONS.into_iter().zip(noticed) {
        let Noticed {
            broken,
            noticed,
            with_equal_clocks,
            of_0,
            harmless,
        } = found;
        print!("{question:8} {broken:7} {noticed:8} {with_equal_clocks:18}");
        println!(" {of_0:13} {harmless:9}");
    }
}
