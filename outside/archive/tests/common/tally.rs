//! Counts of what the cases of a test reached. A comparison whose cases miss an outcome says
//! nothing about it, so each test names the outcomes that it has to reach, and no other may occur.

use std::collections::BTreeMap;

/// The outcomes of refusals with these numbers, and of acceptance as 0.
pub fn outcomes(numbers: &[u64]) -> Vec<String> {
    numbers.iter().map(u64::to_string).collect()
}

#[derive(Default)]
pub struct Tally {
    cases: u64,
    outcomes: BTreeMap<String, u64>,
}

impl Tally {
    pub fn count(&mut self, outcome: String) {
        self.cases += 1;
        *self.outcomes.entry(outcome).or_default() += 1;
    }

    /// Fails unless each of these outcomes was reached so often.
    pub fn often(&self, test: &str, at_least: u64, outcomes: &[String]) {
        for outcome in outcomes {
            let times = self.outcomes.get(outcome).copied().unwrap_or_default();
            assert!(times >= at_least, "{test}: {outcome} only {times} times");
        }
    }

    /// Prints the counts, and fails unless there were enough cases, each of these outcomes was
    /// reached, and no other was.
    pub fn finish(&self, test: &str, at_least: u64, outcomes: &[String]) {
        self.finish_within(test, at_least, outcomes, outcomes);
    }

    /// The same where more outcomes are possible than have to be reached.
    pub fn finish_within(
        &self,
        test: &str,
        at_least: u64,
        outcomes: &[String],
        possible: &[String],
    ) {
        eprintln!("{test}: {} cases: {:?}", self.cases, self.outcomes);
        assert!(
            self.cases >= at_least,
            "{test}: fewer than {at_least} cases"
        );
        for outcome in outcomes {
            assert!(self.outcomes.contains_key(outcome), "{test}: no {outcome}");
        }
        for outcome in self.outcomes.keys() {
            assert!(possible.contains(outcome), "{test}: unexpected {outcome}");
        }
    }
}
