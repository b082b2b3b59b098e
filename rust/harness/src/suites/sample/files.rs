//! The sample day as a day file.
use super::{MOVED, SCHEDULE};
use crate::day::sample_day;
use crate::day_file::DayFile;
use crate::plan::PLAN;
use crate::run::{Run, wanted};

const FILE: &str = include_str!("../../../../../samples/sample.txt");

/// The seats of the file: the choices of chooser 0 and of chooser 1.
const SEATS: [u8; 4] = [1, 2, 0, 2];

pub fn run(run: &mut Run) {
    run.case(|_| {
        let trail = [SCHEDULE, MOVED, SCHEDULE].map(|schedule| schedule.to_vec());
        let mut plan = [0; PLAN];
        plan[..SEATS.len()].copy_from_slice(&SEATS);
        let file = DayFile::new("is_feasible", &sample_day()).trail(&trail);
        let text = file.searched().at_limit(1).plan(&plan).text();
        let said = text.as_deref().map(statements);
        wanted(said, Ok(statements(FILE)), || "the file of the sample day".to_owned())
    });
}

/// The lines that say something, without their comments.
fn statements(text: &str) -> Vec<&str> {
    let said = text.lines().map(|line| line.split('#').next().unwrap_or_default().trim());
    said.filter(|line| !line.is_empty()).collect()
}
