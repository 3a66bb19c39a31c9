//! How often each call gave each refusal, and how often builds reached a case.

use generate::Random;
use std::collections::BTreeMap;
use std::fmt;

/// Counts by call and refusal number, 0 for none, and by case.
#[derive(Clone, Debug, Default, PartialEq, Eq)]
pub struct Tally {
    seen: BTreeMap<(&'static str, u32), u64>,
    reached: BTreeMap<&'static str, u64>,
}

impl Tally {
    pub fn new() -> Tally {
        Tally::default()
    }

    /// The counts of a comparison that is run so many times, from one seed; the seed and the counts are printed.
    pub fn of_runs(
        name: &str,
        seed: u64,
        times: usize,
        run: impl Fn(&mut Random, &mut Tally),
    ) -> Tally {
        let mut random = Random::announced(name, seed);
        let mut tally = Tally::new();
        for _ in 0..times {
            run(&mut random, &mut tally);
        }
        println!("{tally}");
        tally
    }

    pub fn note(&mut self, call: &'static str, refusal: u32) {
        *self.seen.entry((call, refusal)).or_default() += 1;
    }

    pub fn reach(&mut self, case: &'static str) {
        *self.reached.entry(case).or_default() += 1;
    }

    /// Counts the cases that are true.
    pub fn reach_all<const N: usize>(&mut self, cases: [&'static str; N], reached: [bool; N]) {
        for (case, _) in cases.into_iter().zip(reached).filter(|(_, reached)| *reached) {
            self.reach(case);
        }
    }

    /// Answers of the call with the refusal number.
    pub fn of(&self, call: &'static str, refusal: u32) -> u64 {
        self.seen.get(&(call, refusal)).copied().unwrap_or(0)
    }

    /// All answers.
    pub fn all(&self) -> u64 {
        self.seen.values().sum()
    }

    /// Fails if a call gave one of the refusal numbers, or none of them for 0, less than `least` times.
    pub fn expect(&self, call: &'static str, refusals: &[u32], least: u64) {
        for &refusal in refusals {
            let count = self.of(call, refusal);
            assert!(count >= least, "{call} gave {refusal} only {count} times\n{self}");
        }
        for ((name, refusal), count) in &self.seen {
            let foreign = *name == call && !refusals.contains(refusal);
            assert!(!foreign, "{call} gave {refusal} {count} times\n{self}");
        }
    }

    /// Fails if a navigation call on indexes that were built gave a refusal number that it can give less than `least`
    /// times, or gave another: what a build leaves has no fault, so that 13 and 15 can't be. Without entries no node has
    /// row number 0, so that pulls aren't refused by 4.
    pub fn expect_navigation(&self, least: u64) {
        let meetings = ["meet", "meet by root ranks", "climb"];
        for call in ["span", "subtree_sum", "path_sum"].into_iter().chain(meetings) {
            self.expect(call, &[0, 14], least);
        }
        let siblings = ["siblings", "siblings by hops", "siblings both ways"];
        for call in ["descendants", "ancestors"].into_iter().chain(siblings) {
            self.expect(call, &[0, 14, 16], least);
        }
        self.expect("pull", &[0], least);
        self.expect_reached(&["totals moved by a pull"], least);
    }

    /// Fails if one of the cases was reached less than `least` times.
    pub fn expect_reached(&self, cases: &[&'static str], least: u64) {
        for case in cases {
            let count = self.reached.get(case).copied().unwrap_or(0);
            assert!(count >= least, "{case}: reached only {count} times\n{self}");
        }
    }
}

impl fmt::Display for Tally {
    fn fmt(&self, f: &mut fmt::Formatter<'_>) -> fmt::Result {
        let mut last = "";
        for ((call, refusal), count) in &self.seen {
            if *call != last {
                write!(f, "{}{call}:", if last.is_empty() { "" } else { "\n" })?;
                last = call;
            }
            match refusal {
                0 => write!(f, " accepted {count}")?,
                _ => write!(f, " [{refusal}] {count}")?,
            }
        }
        for (case, count) in &self.reached {
            write!(f, "\n{case}: reached {count}")?;
        }
        Ok(())
    }
}
