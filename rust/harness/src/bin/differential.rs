//! Runs the suites. See `options.rs` for what it can be told.
#![forbid(unsafe_code)]

use harness::options::Options;
use harness::run::Run;
use harness::suites::{Class, SUITES, Suite};
use harness::{panics, records};
use std::process::ExitCode;
use std::time::Instant;
use std::{env, fs};

fn main() -> ExitCode {
    let options = match Options::read(env::args().skip(1)) {
        Ok(options) => options,
        Err(message) => {
            eprintln!("{message}");
            return ExitCode::from(2);
        }
    };
    panics::set_hook();
    port::crash::watch();
    if options.write_records {
        fs::write(records::PATH, records::bytes()).expect("the records can be written");
        return ExitCode::SUCCESS;
    }
    let Total { made, failed, .. } = run_all(&options);
    println!("differential: {made} cases, {failed} failed");
    if made > 0 && failed == 0 { ExitCode::SUCCESS } else { ExitCode::FAILURE }
}

/// The cases that were made, all and by what they are, and those that failed.
#[derive(Default)]
struct Total {
    made: u64,
    failed: u64,
    single_calls: u64,
    days: u64,
    wild: u64,
    others: u64,
}

impl Total {
    /// What is the same with every seed counts as a day or as wild nowhere.
    fn add(&mut self, class: Class, run: &Run) {
        self.made += run.made;
        self.failed += run.failed;
        let (of_class, fixed) = match class {
            Class::SingleCalls | Class::Others => (run.made, 0),
            Class::Days | Class::Wild => (run.made - run.fixed, run.fixed),
        };
        match class {
            Class::SingleCalls => self.single_calls += of_class,
            Class::Days => self.days += of_class,
            Class::Wild => self.wild += of_class,
            Class::Others => self.others += of_class,
        }
        self.others += fixed;
    }

    /// How the cases divide.
    fn print(&self) {
        let Self { single_calls, days, wild, others, .. } = self;
        let is_single = |suite: &&Suite| suite.class == Class::SingleCalls;
        let names = SUITES.iter().filter(is_single).map(|suite| suite.name).collect::<Vec<_>>();
        let names = names.join(", ");
        println!(
            "differential: {single_calls} single calls ({names}), {days} days, {wild} wild, \
             {others} others"
        );
    }
}

fn run_all(options: &Options) -> Total {
    let mut total = Total::default();
    for suite in SUITES.iter().filter(|suite| is_meant(options, suite)) {
        let start = Instant::now();
        let mut run = Run::new(suite.name, &options.settings);
        run.random_only = options.random_only;
        (suite.run)(&mut run);
        run.end();
        let (name, seconds) = (suite.name, start.elapsed().as_secs_f64());
        println!("{name}: {} cases, {} failed, {seconds:.1} s", run.made, run.failed);
        total.add(suite.class, &run);
    }
    total.print();
    total
}

fn is_meant(options: &Options, suite: &Suite) -> bool {
    let is_only = options.only.as_deref().is_none_or(|only| only == suite.name);
    is_only && (suite.is_random || !options.random_only)
}
