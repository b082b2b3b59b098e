//! What the command line of the differential run can say.
use crate::run::Settings;
use crate::suites::SUITES;

const USAGE: &str = "differential [--seed N] [--count N] [--only NAME [--case N]] \
                     [--random-only] [--write-records]";

/// What the gate runs with.
const SEED: u64 = 1;

#[derive(Debug)]
pub struct Options {
    pub settings: Settings,
    pub only: Option<String>,
    /// Leave out cases that are the same with every seed.
    pub random_only: bool,
    /// Write tests/records.bin and run nothing.
    pub write_records: bool,
}

impl Options {
    /// Reads the words of a command line, or says what is wrong with them.
    pub fn read(mut words: impl Iterator<Item = String>) -> Result<Self, String> {
        let settings = Settings { seed: SEED, count: None, case: None };
        let mut options = Self { settings, only: None, random_only: false, write_records: false };
        while let Some(word) = words.next() {
            match word.as_str() {
                "--random-only" => {
                    options.random_only = true;
                    continue;
                }
                "--write-records" => {
                    options.write_records = true;
                    continue;
                }
                _ => (),
            }
            let Some(value) = words.next() else {
                return Err(format!("{word} stands without a value\n{USAGE}"));
            };
            let number = || value.parse().map_err(|_| format!("{word} takes a number\n{USAGE}"));
            match word.as_str() {
                "--seed" => options.settings.seed = number()?,
                "--count" => options.settings.count = Some(number()?),
                "--case" => options.settings.case = Some(number()?),
                "--only" => options.only = Some(suite_name(value)?),
                _ => return Err(format!("{word} is no option\n{USAGE}")),
            }
        }
        if options.settings.case.is_some() && options.only.is_none() {
            return Err(format!("--case needs --only\n{USAGE}"));
        }
        Ok(options)
    }
}

fn suite_name(name: String) -> Result<String, String> {
    let names = SUITES.iter().map(|suite| suite.name).collect::<Vec<_>>();
    if names.contains(&name.as_str()) {
        Ok(name)
    } else {
        Err(format!("{name} is no suite; there are {}", names.join(", ")))
    }
}
