//! The file of recorded answers is what would be written now.
use crate::records;
use crate::run::{Run, wanted};
use std::fs;

pub fn run(run: &mut Run) {
    run.over_all(|| {
        let is_same = fs::read(records::PATH).is_ok_and(|bytes| bytes == records::bytes());
        wanted(is_same, true, || "tests/records.bin is what --write-records writes".to_owned())
    });
}
