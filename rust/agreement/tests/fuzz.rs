//! The formulas and files of the command `fuzz`: a short run meets every refusal of every service.

use agreement::formula;
use agreement::fuzz::Fuzz;
use agreement::random::Random;

fn short_run() -> Fuzz {
    let mut fuzz = Fuzz::default();
    for seed in 0..4_000 {
        let mut random = Random::new(seed);
        let formula = formula::any(&mut random);
        fuzz.compare_formula(&mut random, &formula);
        let file = fuzz.file(&mut random);
        fuzz.compare(&mut random, &file);
    }
    fuzz
}

#[test]
fn every_refusal_is_met() {
    let refusals: [&[usize]; 10] = [
        &[4, 5, 11, 16, 17, 18],
        &[1, 2, 3, 4, 5, 6],
        &[1, 2, 3, 4, 5, 6, 7, 14, 15],
        &[1, 2, 3, 4, 5, 6, 7, 14, 15],
        &[1, 2, 3, 4, 5, 6, 7, 8, 9, 10, 11],
        &[1, 2, 3, 4, 5, 6, 7],
        &[1, 2, 3, 4, 12],
        &[1, 2, 3, 4, 12, 13],
        &[1, 2, 3, 4, 12, 13],
        &[1, 2, 3, 4, 11, 12, 13],
    ];
    for (tally, refusals) in short_run().tallies().iter().zip(refusals) {
        tally.finish(4_000, refusals);
    }
}
