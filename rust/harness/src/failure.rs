//! Why a case failed, and how that is printed.
use std::fmt::Debug;

/// Letters of an input that are printed. A day file says the most of it.
const SHOWN: usize = 2_000;

/// Who answers where a case panics.
const PANIC: &str = "panic";

/// What was asked, and who answered what.
#[derive(Debug)]
pub struct Failure {
    input: String,
    answers: Vec<(&'static str, String)>,
}

pub type Outcome = Result<(), Failure>;

/// The port and the Rust must give the same.
pub fn same<T: PartialEq + Debug>(port: T, rust: T, input: impl FnOnce() -> String) -> Outcome {
    answers_equal(("port", port), ("Rust", rust), input)
}

/// What was found must be what was wanted.
pub fn wanted<T: PartialEq + Debug>(
    found: T,
    wanted: T,
    input: impl FnOnce() -> String,
) -> Outcome {
    answers_equal(("found", found), ("wanted", wanted), input)
}

fn answers_equal<T: PartialEq + Debug>(
    left: (&'static str, T),
    right: (&'static str, T),
    input: impl FnOnce() -> String,
) -> Outcome {
    if left.1 == right.1 {
        return Ok(());
    }
    let answers = [left, right].map(|(who, answer)| (who, format!("{answer:?}")));
    Err(Failure { input: input(), answers: answers.to_vec() })
}

impl Failure {
    /// A case that panics has not told its input; the message says where.
    pub fn panicked(message: String) -> Self {
        Self { input: String::new(), answers: vec![(PANIC, message)] }
    }

    /// Whether both are differences, or the same panic.
    pub fn is_like(&self, other: &Self) -> bool {
        let panic = |failure: &Self| failure.answers.iter().find(|(who, _)| *who == PANIC).cloned();
        panic(self) == panic(other)
    }

    /// The input, the answers, and the day file or why there is none.
    pub fn report(&self, file: Result<String, String>) -> String {
        let mut lines = Vec::new();
        if !self.input.is_empty() {
            lines.push(format!("  input: {}", front(&folded(&self.input))));
        }
        let answers = self.answers.iter();
        lines.extend(answers.map(|(who, answer)| format!("  {who}: {}", folded(answer))));
        match file {
            Err(reason) => lines.push(format!("  no day file: {reason}")),
            Ok(text) => {
                lines.push("# A day file for ./run FILE from here on:".to_owned());
                lines.push(text.trim_end().to_owned());
                lines.push("# The day file ends here.".to_owned());
            }
        }
        lines.join("\n")
    }
}

fn front(text: &str) -> String {
    match text.char_indices().nth(SHOWN) {
        None => text.to_owned(),
        Some((end, _)) => format!("{} ..", &text[..end]),
    }
}

/// A list in which one entry follows itself many times shows it once.
fn folded(text: &str) -> String {
    const SEPARATOR: &str = ", ";
    let entries = text.split(SEPARATOR).collect::<Vec<_>>();
    let fold = |run: &[&str]| match run.len() {
        ..4 => run.join(SEPARATOR),
        length => format!("{} x{length}", run[0]),
    };
    entries.chunk_by(|left, right| left == right).map(fold).collect::<Vec<_>>().join(SEPARATOR)
}

#[cfg(test)]
mod tests {
    use super::folded;

    #[test]
    fn what_follows_itself_is_shown_once() {
        assert_eq!(folded("[1, 0, 0, 0, 0, 2, 2]"), "[1, 0 x4, 2, 2]");
        assert_eq!(folded("nothing"), "nothing");
    }
}
