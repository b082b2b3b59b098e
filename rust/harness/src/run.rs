//! The run of one suite: its cases are numbered, each has random numbers of its
//! own, and a failed one says how to run it again. One of a day is made smaller
//! first, and printed as a day file.
use crate::day_file::{self, DayFile};
use crate::draws::Draw;
pub use crate::failure::{Failure, Outcome, same, wanted};
use crate::features::Features;
use crate::panics::caught;
use crate::random::Random;
use crate::recording;
use crate::shrink::{self, Smaller};
use port::crash;

/// Failed cases of a suite that are made smaller, if they are of days.
const MADE_SMALLER: u64 = 3;

/// Failed cases of a suite that are printed; the rest are counted.
const PRINTED: u64 = 20;

/// The random days of a suite that names no other number.
const DAYS: u64 = 5_000;

/// How many random days a suite has.
#[derive(Debug, Clone, Copy)]
pub struct Days {
    /// Days that the gate runs.
    pub usual: u64,
    /// Fewer days than these need not show every feature.
    pub for_features: u64,
}

/// What the whole run was told.
#[derive(Debug, Clone)]
pub struct Settings {
    pub seed: u64,
    /// Random days in each suite over days, where they are not its usual ones;
    /// other suites have a multiple of it.
    pub count: Option<u64>,
    /// The one case to run.
    pub case: Option<u64>,
}

pub struct Run<'a> {
    suite: &'static str,
    settings: &'a Settings,
    next: u64,
    /// Cases that are the same with every seed are left out.
    pub random_only: bool,
    /// The cases that come are such ones.
    is_fixed: bool,
    pub made: u64,
    /// Those of the cases that are the same with every seed, or over all others.
    pub fixed: u64,
    pub failed: u64,
}

impl<'a> Run<'a> {
    pub fn new(suite: &'static str, settings: &'a Settings) -> Self {
        Self {
            suite,
            settings,
            next: 0,
            random_only: false,
            is_fixed: false,
            made: 0,
            fixed: 0,
            failed: 0,
        }
    }

    pub fn count(&self) -> u64 {
        self.settings.count.unwrap_or(DAYS)
    }

    /// Cases that are the same with every seed. They have their numbers where they
    /// are left out too.
    pub fn fixed(&mut self, cases: impl FnOnce(&mut Self)) {
        self.is_fixed = true;
        cases(self);
        self.is_fixed = false;
    }

    /// The number of the next case; none where it is left out, since another one
    /// alone was asked for, or only random ones.
    fn next_case(&mut self) -> Option<u64> {
        let case = self.next;
        self.next += 1;
        let is_meant = self.settings.case.is_none_or(|only| only == case);
        if !is_meant || self.is_fixed && self.random_only {
            return None;
        }
        self.made += 1;
        self.fixed += u64::from(self.is_fixed);
        recording::start_case();
        crash::at((self.suite, self.settings.seed, case));
        Some(case)
    }

    fn random(&self, case: u64) -> Random {
        Random::of_case(self.settings.seed, self.suite, case)
    }

    /// The next case.
    pub fn case(&mut self, test: impl FnOnce(&mut Random) -> Outcome) {
        if let Some(case) = self.next_case() {
            let mut random = self.random(case);
            let (outcome, file) = day_file::noted(|| judged(|| test(&mut random)));
            if let Err(failure) = outcome {
                self.fails(Some(case), |_| failure.report(text(file.as_ref())));
            }
        }
    }

    /// The next case, of a day: where it fails a smaller one is looked for.
    pub fn case_of_day(&mut self, mut test: impl FnMut(&mut Random) -> Outcome) {
        if let Some(case) = self.next_case()
            && let Err(failure) = judged(|| test(&mut self.random(case)))
        {
            let random = self.random(case);
            self.fails(Some(case), |is_made_smaller| {
                if is_made_smaller {
                    return made_smaller(&mut test, random, &failure);
                }
                failure.report(Err("it is made when the case is run again alone".to_owned()))
            });
        }
    }

    /// A case for each day, as many as the run was told or else the usual ones,
    /// and one over all of them: they have shown every feature.
    pub fn each_day(
        &mut self,
        days: Days,
        features: &mut Features,
        one_day: impl Fn(&mut Random, &mut Features) -> Outcome,
    ) {
        let count = self.settings.count.unwrap_or(days.usual);
        for _ in 0..count {
            self.case_of_day(|random| one_day(random, features));
        }
        if count >= days.for_features {
            self.over_all(|| features.all_seen());
        }
    }

    /// A case over all that ran before; left out where one alone was asked for, or
    /// only random ones: with any seed a rare feature may not show.
    pub fn over_all(&mut self, test: impl FnOnce() -> Outcome) {
        if self.settings.case.is_some() || self.random_only {
            return;
        }
        self.made += 1;
        self.fixed += 1;
        if let Err(failure) = judged(test) {
            self.fails(None, |_| failure.report(text(None)));
        }
    }

    /// Counts and prints a failed case. What is to be said of it depends on whether
    /// the case is to be made smaller.
    fn fails(&mut self, case: Option<u64>, say: impl FnOnce(bool) -> String) {
        self.failed += 1;
        if self.failed > PRINTED {
            return;
        }
        let Settings { seed, count, .. } = self.settings;
        let suite = self.suite;
        let name = case.map_or("over all cases".to_owned(), |case| format!("case {case}"));
        // A case past the usual ones needs the count that it was found with.
        let options = [
            case.map(|case| format!(" --case {case}")),
            count.map(|count| format!(" --count {count}")),
        ];
        println!("FAILED {suite}, seed {seed}, {name}");
        println!("{}", say(self.failed <= MADE_SMALLER));
        println!(
            "  again: cargo run --release --offline --manifest-path rust/Cargo.toml \
             --package harness --bin differential -- --only {suite} --seed {seed}{}",
            options.into_iter().flatten().collect::<String>()
        );
    }

    /// Says how many failed cases were not printed.
    pub fn end(&self) {
        if self.failed > PRINTED {
            println!("FAILED {}: {} more cases", self.suite, self.failed - PRINTED);
        }
    }
}

/// The outcome of a case, or its panic as one.
fn judged(test: impl FnOnce() -> Outcome) -> Outcome {
    caught(test).unwrap_or_else(|message| Err(Failure::panicked(message)))
}

/// What there is to say of a smaller case that fails too.
fn made_smaller(test: &mut shrink::Test, random: Random, failure: &Failure) -> String {
    let Some(failed) = shrink::failed(test, random.noting()) else {
        return failure.report(Err("the case does not fail when it is run again".to_owned()));
    };
    let before = drawn(&failed.draws);
    let Smaller { failed, tries } = shrink::smallest(test, failed);
    let after = drawn(&failed.draws);
    let report = failed.failure.report(text(failed.file.as_ref()));
    format!("  made smaller in {tries} runs: of {before} draws {after} are left\n{report}")
}

/// How many draws are not the simplest.
fn drawn(draws: &[Draw]) -> usize {
    draws.iter().filter(|draw| !draw.is_simplest()).count()
}

/// A day file, or why there is none.
fn text(file: Option<&DayFile>) -> Result<String, String> {
    file.map_or(Err("the case is of no day".to_owned()), DayFile::text)
}
