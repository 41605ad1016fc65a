//! Prints how many mutants of a fixed seed each question refuses first.
//!
//! Arguments: the number of mutants (20000) and the seed (1).

use peer::{check, mutate::mutant, Histogram, Rng};

fn main() {
    let [mutants, seed] = peer::arguments([20_000, 1]);
    let mut refusals = Histogram::default();
    for case in 0..mutants {
        let mut rng = Rng::for_case(seed, case);
        refusals.count(check(&mutant(&mut rng)).number);
    }
    print!("{refusals}");
}
