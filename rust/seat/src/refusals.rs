//! What each refusal means and what to do about it, from the table of README.md.

const README: &str = include_str!("../../../README.md");

/// The head of the table of refusals; README.md has other tables with numbers.
const HEAD: &str = "| number | what is wrong | what to do |\n";

/// A call that the library refused.
#[derive(Debug, Clone)]
pub struct Refusal {
    /// What was asked for, as `build`.
    pub call: String,
    pub number: u32,
    /// The line that is to blame, where one is.
    pub line: Option<usize>,
    /// What is wrong there.
    pub reason: String,
    /// What to do about it.
    pub remedy: &'static str,
}

/// Seats are given by a planner, not by a solver.
const SEATS_REMEDY: &str = "mend the seats, or the limit";

impl Refusal {
    /// A refusal of which nothing more is known than its number.
    pub fn new(call: &str, number: u32) -> Self {
        let unknown = ("not in the table of README.md", "look it up in README.md");
        let (reason, remedy) = row(number).unwrap_or(unknown);
        Self { call: call.to_owned(), number, line: None, reason: reason.to_owned(), remedy }
    }

    /// The same, with what is wrong in this day.
    pub fn because(self, found: Option<(Option<usize>, String)>) -> Self {
        match found {
            Some((line, reason)) => Self { line, reason, ..self },
            None => self,
        }
    }

    /// The same, of values that were made of seats.
    pub fn of_seats(self) -> Self {
        Self { remedy: SEATS_REMEDY, ..self }
    }
}

/// What the number means, and what to do about it.
fn row(number: u32) -> Option<(&'static str, &'static str)> {
    let front = format!("| {number} | ");
    let (_, table) = README.split_once(HEAD)?;
    let mut rows = table.lines().take_while(|line| line.starts_with('|'));
    let rest = rows.find_map(|line| line.strip_prefix(front.as_str()))?;
    rest.strip_suffix(" |")?.split_once(" | ")
}

#[cfg(test)]
mod tests {
    use super::row;

    #[test]
    fn every_refusal_has_its_row() {
        for number in 1..=18 {
            let (what, remedy) = row(number).expect("a row of the table");
            assert!(!what.is_empty() && !remedy.is_empty() && !remedy.contains('|'));
        }
        assert_eq!((row(0), row(19)), (None, None));
    }
}
