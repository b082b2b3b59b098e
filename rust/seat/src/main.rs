//! Reads a day from a text file and takes it from timetable to checked plan: build,
//! moves, model, check of a plan, verdicts and score. docs/FORMAT.md tells the form
//! of the file.
#![forbid(unsafe_code)]

mod constraints;
mod day;
mod entity;
mod explain;
mod json;
mod model;
mod options;
mod refusals;
mod report;
mod run;
mod source;
mod statements;
mod text;
mod words;

use day::Day;
use entity::Entity;
use options::{Options, Request, USAGE};
use report::{Report, Stop, WRONG};
use source::{Fault, shown};
use std::ffi::OsStr;
use std::fs::File;
use std::io::{ErrorKind, Read, Write};
use std::process::ExitCode;
use std::{env, io};
use text::View;

/// No day needs a file as long as this.
const MOST_BYTES: u64 = 1 << 20;

/// What is printed, and the exit code.
struct Printed {
    text: String,
    /// A line for each refusal or fault.
    messages: Vec<String>,
    code: u8,
}

fn main() -> ExitCode {
    let printed = match Request::read(env::args_os().skip(1)) {
        Ok(Request::Help) => done(USAGE.to_owned()),
        Ok(Request::Version) => done(format!("seat {}\n", env!("CARGO_PKG_VERSION"))),
        Ok(Request::Day(options)) => print_day(&options),
        Err(reason) => wrong(vec![reason, USAGE.trim_end().to_owned()]),
    };
    let code = match write_out(&printed.text) {
        Ok(()) => printed.code,
        Err(error) => {
            say(&[format!("what is printed cannot be written: {error}")]);
            WRONG
        }
    };
    say(&printed.messages);
    ExitCode::from(code)
}

fn done(text: String) -> Printed {
    Printed { text, messages: Vec::new(), code: 0 }
}

fn wrong(messages: Vec<String>) -> Printed {
    Printed { text: String::new(), messages, code: WRONG }
}

/// A reader that has gone away has seen what it wanted.
fn write_out(text: &str) -> io::Result<()> {
    let mut out = io::stdout().lock();
    match out.write_all(text.as_bytes()).and_then(|()| out.flush()) {
        Err(error) if error.kind() == ErrorKind::BrokenPipe => Ok(()),
        result => result,
    }
}

/// Where messages cannot be written, nobody can be told.
fn say(messages: &[String]) {
    let mut out = io::stderr().lock();
    for message in messages {
        let _ = writeln!(out, "{message}");
    }
}

fn print_day(options: &Options) -> Printed {
    let name = file_name(&options.file);
    let bytes = match bytes(&options.file) {
        Ok(bytes) => bytes,
        Err(error) => return wrong(vec![format!("{name}: cannot be read: {error}")]),
    };
    if bytes.len() as u64 > MOST_BYTES {
        return wrong(vec![format!("{name}: is longer than {MOST_BYTES} bytes")]);
    }
    match Day::read(&bytes) {
        Ok(day) => print_report(options, &name, &day),
        Err(fault) => {
            let text = if options.is_json { json::of_wrong_file(&fault) } else { String::new() };
            Printed { text, messages: vec![fault_message(&name, &fault)], code: WRONG }
        }
    }
}

fn print_report(options: &Options, name: &str, day: &Day) -> Printed {
    let view = match view(options, day) {
        Ok(view) => view,
        Err(reason) => return wrong(vec![format!("{name}: {reason}")]),
    };
    let report = run::run(day, options.keeps_going);
    let text = if options.is_json {
        json::of_report(day, &report, options.has_model)
    } else {
        text::text(day, &report, view)
    };
    Printed { text, messages: messages(name, &report), code: report.exit_code() }
}

/// A line for each thing that was refused or is wrong.
fn messages(name: &str, report: &Report) -> Vec<String> {
    let refused = report.refusals().map(|refusal| {
        let place = refusal.line.map_or(name.to_owned(), |line| format!("{name}:{line}"));
        format!("{place}: {} refused by {}: {}", refusal.call, refusal.number, refusal.reason)
    });
    let fault = match &report.stop {
        Some(Stop::Wrong(fault)) => Some(fault_message(name, fault)),
        _ => None,
    };
    refused.chain(fault).collect()
}

fn fault_message(name: &str, fault: &Fault) -> String {
    format!("{name}:{}: {}", fault.line, fault.reason)
}

fn view(options: &Options, day: &Day) -> Result<View, String> {
    let find = |entity, word: &Option<String>| {
        word.as_ref().map(|word| find(day, entity, word)).transpose()
    };
    let (roster, chooser) =
        (find(Entity::Choice, &options.roster)?, find(Entity::Chooser, &options.chooser)?);
    if (roster.is_some() || chooser.is_some()) && day.plan.is_none() {
        return Err("there is no plan in the file: give one by 'seat' lines".to_owned());
    }
    Ok(View { roster, chooser, has_model: options.has_model })
}

/// What a word names: by its number, or by its name.
fn find(day: &Day, entity: Entity, word: &str) -> Result<usize, String> {
    match words::number(word) {
        Ok(number) => day.sizes.has(entity, number).map(|()| number),
        Err(_) => day
            .names
            .find(entity, word)
            .ok_or_else(|| format!("there is no {} '{}'", entity.word(), shown(word))),
    }
}

/// The file's name as it may go to a terminal.
fn file_name(file: &OsStr) -> String {
    if file == "-" {
        return "standard input".to_owned();
    }
    let visible = |letter: char| {
        if source::is_visible(letter) {
            letter.to_string()
        } else {
            letter.escape_unicode().to_string()
        }
    };
    file.to_string_lossy().chars().map(visible).collect()
}

/// The file, or the front of one that is too long.
fn bytes(file: &OsStr) -> io::Result<Vec<u8>> {
    let mut bytes = Vec::new();
    if file == "-" {
        io::stdin().lock().take(MOST_BYTES + 1).read_to_end(&mut bytes)?;
    } else {
        File::open(file)?.take(MOST_BYTES + 1).read_to_end(&mut bytes)?;
    }
    Ok(bytes)
}
