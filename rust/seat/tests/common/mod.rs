//! Runs the command on files.
#![allow(dead_code, reason = "each test program uses a part")]
use std::fs;
use std::io::Write;
use std::path::{Path, PathBuf};
use std::process::{Command, Output, Stdio};

pub const SAMPLE: &str = include_str!("../../../../samples/sample.txt");

/// The values of the sample's plan, by the lists that its moves leave.
pub const VALUES: &str = "values 1 0 1 1 1 0 1 0";

/// What the command did.
pub struct Ran {
    pub path: PathBuf,
    pub code: Option<i32>,
    pub out: String,
    pub messages: String,
}

impl Ran {
    fn new(path: PathBuf, output: Output) -> Self {
        let text = |bytes: Vec<u8>| String::from_utf8(bytes).expect("text in UTF-8");
        Self {
            path,
            code: output.status.code(),
            out: text(output.stdout),
            messages: text(output.stderr),
        }
    }

    /// The line that the first message names.
    pub fn line(&self) -> Option<usize> {
        let rest = self.messages.strip_prefix(&format!("{}:", self.path.display()))?;
        rest.split(':').next()?.parse().ok()
    }
}

pub fn command() -> Command {
    Command::new(env!("CARGO_BIN_EXE_seat"))
}

/// Runs it on a file, which stays where a failure can be looked at.
pub fn seat(name: &str, bytes: impl AsRef<[u8]>, options: &[&str]) -> Ran {
    let path = Path::new(env!("CARGO_TARGET_TMPDIR")).join(name);
    fs::write(&path, bytes).expect("the file can be written");
    let output = command().args(options).arg(&path).output();
    Ran::new(path, output.expect("the command runs"))
}

/// Runs it on standard input.
pub fn seat_input(bytes: &[u8], options: &[&str]) -> Ran {
    let mut command = command();
    command.args(options).arg("-").stdin(Stdio::piped());
    let mut child =
        command.stdout(Stdio::piped()).stderr(Stdio::piped()).spawn().expect("the command runs");
    let mut input = child.stdin.take().expect("its input");
    input.write_all(bytes).expect("the input can be written");
    drop(input);
    Ran::new(PathBuf::from("standard input"), child.wait_with_output().expect("its output"))
}

/// The sample with a line in the place of another, or left out.
pub fn with(old: &str, new: &str) -> String {
    let line = SAMPLE.lines().find(|line| line.starts_with(old)).expect("the sample has the line");
    SAMPLE.replacen(&format!("{line}\n"), &format!("{new}\n"), 1)
}

/// The number of the sample's line that starts so.
pub fn line_of(front: &str) -> usize {
    let place = SAMPLE.lines().position(|line| line.starts_with(front));
    place.expect("the sample has the line") + 1
}

/// The sample without a plan.
pub fn without_plan() -> String {
    let lines = SAMPLE.lines().filter(|line| !line.starts_with("seat"));
    lines.map(|line| format!("{line}\n")).collect()
}

/// The sample with its plan by values.
pub fn by_values(values: &str) -> String {
    without_plan() + values + "\n"
}
