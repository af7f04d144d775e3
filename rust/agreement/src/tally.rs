//! What a run of random cases has seen.

use std::time::Instant;

use crate::Outcome;

/// How many counts of refusals there are: causes go up to 18, and there is no cause 0.
const CAUSES: usize = 19;

/// Counts of the outcomes of a run, from its start.
pub struct Tally {
    service: &'static str,
    start: Instant,
    cases: u64,
    results: u64,
    refusals: [u64; CAUSES],
}

impl Tally {
    /// Starts a run of a service.
    pub fn new(service: &'static str) -> Tally {
        Tally { service, start: Instant::now(), cases: 0, results: 0, refusals: [0; CAUSES] }
    }

    /// Counts a case by the outcome on which both sides agreed.
    pub fn count<T>(&mut self, outcome: &Outcome<T>) {
        self.cases += 1;
        match outcome {
            Ok(_) => self.results += 1,
            Err((number, _)) => self.refusals[*number as usize] += 1,
        }
    }

    /// Prints the run. The time is that of making a case, of both sides and of comparing.
    pub fn print(&self) {
        let service = self.service;
        let nanoseconds = self.start.elapsed().as_nanos() / u128::from(self.cases.max(1));
        println!("{service}: {} cases, {nanoseconds} ns a case", self.cases);
        println!("{service}: {} results", self.results);
        for (number, count) in self.refusals.iter().enumerate() {
            if *count > 0 {
                println!("{service}: {count} refusals of cause {number}");
            }
        }
    }

    /// What the columns of [`Tally::row`] hold.
    pub fn heading() -> String {
        let causes: String = (1..CAUSES).map(|number| format!(" {number:>6}")).collect();
        format!("{:<14} {:>8} {:>8}{causes}", "service", "calls", "results")
    }

    /// The counts in one line: cases, results, and the refusals from 1 to 18, `-` where there were
    /// none.
    pub fn row(&self) -> String {
        let shown = |count: &u64| if *count == 0 { "-".to_string() } else { count.to_string() };
        let refusals = self.refusals[1..].iter().map(|count| format!(" {:>6}", shown(count)));
        let refusals: String = refusals.collect();
        format!("{:<14} {:>8} {:>8}{refusals}", self.service, self.cases, self.results)
    }

    /// The count of what was met least: results, or the refusals of a cause that was met at all.
    pub fn least(&self) -> u64 {
        let refusals = self.refusals.into_iter().filter(|count| *count > 0);
        refusals.fold(self.results, u64::min)
    }

    /// Prints the run, and fails unless it was long enough and met results and exactly these
    /// refusals.
    pub fn finish(&self, at_least: u64, refusals: &[usize]) {
        self.print();
        let service = self.service;
        assert!(self.cases >= at_least, "{service}: too few cases");
        assert!(self.results > 0, "{service}: no result was seen");
        for (number, count) in self.refusals.iter().enumerate() {
            assert_eq!(
                *count > 0,
                refusals.contains(&number),
                "{service}: cause {number} was seen {count} times"
            );
        }
    }
}
