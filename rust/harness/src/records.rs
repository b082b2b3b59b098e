//! Recorded answers of every entry, for tests/replay.c, which replays them where
//! the original Rust is not at hand: what the Rust, or where it has no answer the
//! second reading, makes of a call.
//!
//! The file is a magic and then packed bytes (`packing.rs`). Unpacked they are the
//! count of the records and the records. A record is the number of its entry, what
//! is passed in the order of the header, and the answer, field by field. Numbers
//! stand lowest byte first, a size_t has 8 bytes, and a state or a search is its
//! bytes. How a slice is put down is said in `recording.rs`.
use crate::answers::{self, Pair, refused_best, score_bits};
use crate::bridge;
use crate::constraint::{Constraint, OPERATORS, extra};
use crate::day::SCORES;
use crate::packing::packed;
use crate::random::Random;
use crate::recording::{Entry, Keep, LAST, Note, taken};
use crate::run::{Run, Settings};
use crate::scores::{INFINITE, NAN, SPECIAL, random_finite, random_score, score_near};
use crate::suites::negation::{EXTRAS, KINDS, TARGETS};
use crate::suites::{model, roster, sample, search, state, targeted, verdict};
use std::collections::BTreeSet;

/// Where the file is, whatever folder the harness runs in.
pub const PATH: &str = concat!(env!("CARGO_MANIFEST_DIR"), "/../../tests/records.bin");

const MAGIC: &[u8] = b"CENDRAV3";
/// The records never depend on the seed of a run.
const SEED: u64 = 1;
/// The file stays below this many bytes.
const MOST_BYTES: usize = 1_500_000;
/// How many pairs of scores, and how many scores.
const COMPARES: usize = 600;
const FINITES: usize = 60;
/// A suite by its name and the function that makes its cases.
type Recorded = (&'static str, fn(&mut Run));
/// The suites of which every comparison is recorded.
const TARGETED: [Recorded; 2] = [("sample", sample::run), ("targeted", targeted::run)];
/// The suites over days, done and damaged, and how many of theirs are run.
const OF_DAYS: [Recorded; 11] = [
    ("state", state::run),
    ("state_refusals", state::refusals::run),
    ("model", model::run),
    ("values", model::values::run),
    ("model_refusals", model::refusals::run),
    ("rosters", roster::run),
    ("roster_refusals", roster::refusals::run),
    ("search", search::random_days),
    ("search_refusals", search::refusals::run),
    ("verdict", verdict::run),
    ("verdict_refusals", verdict::refusals::run),
];
const DAYS: u64 = 300;

/// The whole file.
pub fn bytes() -> Vec<u8> {
    let mut random = Random::of_case(SEED, "records of calls", 0);
    let mut notes = Vec::new();
    put_constraints(&mut random, &mut notes);
    put_scores(&mut random, &mut notes);
    put_bests(&mut random, &mut notes);
    notes.extend(taken(Keep::All, || run_suites(&TARGETED)));
    notes.extend(taken(Keep::OfEachSort, || run_suites(&OF_DAYS)));
    let entries = notes.iter().map(Note::entry).collect::<BTreeSet<_>>();
    assert_eq!(entries.len(), LAST as usize, "every entry has a record");
    let mut plain = notes.len().to_le_bytes().to_vec();
    notes.iter().for_each(|note| plain.extend(note.bytes()));
    let bytes = [MAGIC, &packed(&plain)].concat();
    assert!(bytes.len() < MOST_BYTES);
    bytes
}

/// Every kind with every extra, left and target as they fall; then every target.
fn put_constraints(random: &mut Random, notes: &mut Vec<Note>) {
    for kind in KINDS {
        put_kind(kind, notes);
        for (extra_case, extra) in EXTRAS {
            let (target_case, target) = random.pick(&TARGETS);
            let left = random.pick(&[0, 5, 31, u32::MAX]);
            let question = Constraint { kind, left, target_case, target, extra_case, extra };
            put_negation(question, notes);
        }
    }
    for (target_case, target) in TARGETS {
        let (kind, left) = (random.pick(&KINDS), 3);
        let (extra_case, extra) = (extra::OPERATOR, random.pick(&OPERATORS));
        let question = Constraint { kind, left, target_case, target, extra_case, extra };
        put_negation(question, notes);
    }
}

fn put_kind(kind: u32, notes: &mut Vec<Note>) {
    let own = bridge::constraint(Constraint { kind, ..Constraint::default() });
    let tests = [
        (Entry::IsValid, own.is_valid()),
        (Entry::IsSchedulingConstraint, own.is_scheduling_constraint()),
        (Entry::IsAssignmentConstraint, own.is_assignment_constraint()),
    ];
    for (entry, holds) in tests {
        notes.push(Note::new(entry, 0).put(&kind).put(&u8::from(holds)));
    }
}

fn put_negation(question: Constraint, notes: &mut Vec<Note>) {
    let answer = answers::negation(question);
    notes.push(Note::new(Entry::Negation, answer.number).put(&question).put(&answer));
}

/// Every pair of the scores that an order could mistake, and random ones.
fn put_scores(random: &mut Random, notes: &mut Vec<Note>) {
    let mistakable = mistakable_scores();
    for &left in &mistakable {
        put_is_finite(left, notes);
        mistakable.iter().for_each(|&right| put_compare(left, right, notes));
    }
    for round in 0..COMPARES {
        let left = score(random, round % 3 == 0);
        let is_near = round % 2 == 0;
        let right = if is_near { score_near(random, left) } else { score(random, round % 3 == 0) };
        put_compare(left, right, notes);
    }
    for round in 0..FINITES {
        put_is_finite(score(random, round % 2 == 0), notes);
    }
    notes.push(Note::new(Entry::Infinite, 0).put(&score_bits(INFINITE)));
    notes.push(Note::new(Entry::GreedyMajor, 0).put(&NAN));
}

fn put_compare(left: Pair, right: Pair, notes: &mut Vec<Note>) {
    let note = Note::new(Entry::Compare, 0).put(&left.0).put(&left.1);
    notes.push(note.put(&right.0).put(&right.1).put(&answers::compare(left, right)));
}

fn put_is_finite(score: Pair, notes: &mut Vec<Note>) {
    let is_finite = u8::from(oracle::calls::is_finite(score));
    notes.push(Note::new(Entry::IsFinite, 0).put(&score.0).put(&score.1).put(&is_finite));
}

/// NaN majors of every sort, which totalOrder would tell apart; both zeros; scores
/// that are not finite; and the circle of SPEC 11.
fn mistakable_scores() -> Vec<Pair> {
    let majors = [NAN, NAN + 1, 0xFFC0_0000, 0xFFFF_FFFF, 0x7F80_0001, 0xFF80_0001];
    let with_minors = |bits: u32| [0.0, 2.0].map(|minor| (f32::from_bits(bits), minor));
    let mut scores = majors.into_iter().flat_map(with_minors).collect::<Vec<_>>();
    scores.extend([(1.0, 3.0), (2.0, 1.0), (1.0, 0.0), (1.0, -0.0), (0.0, 1.0), (-0.0, 1.0)]);
    scores.extend([INFINITE, (0.0, f32::INFINITY), (f32::INFINITY, 0.0), (-f32::INFINITY, 0.0)]);
    scores.extend([(0.0, f32::NAN), (1.0, -f32::INFINITY)]);
    scores
}

/// A score of special values, or mostly a finite one.
fn score(random: &mut Random, is_special: bool) -> Pair {
    if is_special {
        (f32::from_bits(random.pick(&SPECIAL)), f32::from_bits(random.pick(&SPECIAL)))
    } else if random.chance(80) {
        random_finite(random)
    } else {
        random_score(random)
    }
}

/// Lists of every length, and more of the short ones, with the right count of
/// scores, one more and one less, and without the last float; then every two of
/// the scores that an order could mistake, and some of them behind equal ones.
fn put_bests(random: &mut Random, notes: &mut Vec<Note>) {
    for length in (0..=66_usize).chain((0..35).map(|round| round % 12)) {
        let scores = (0..length).map(|_| score(random, false)).collect::<Vec<_>>();
        let floats = flat(&scores);
        for count in [length, length + 1, length.saturating_sub(1)] {
            put_best(&floats, count, notes);
        }
        put_best(&floats[..floats.len().saturating_sub(1)], length, notes);
    }
    let mistakable = mistakable_scores();
    for &first in &mistakable {
        for &last in &mistakable {
            put_best(&flat(&[first, last]), 2, notes);
        }
        let mut scores = vec![first; SCORES];
        put_best(&flat(&scores), SCORES, notes);
        scores[SCORES - 1] = random.pick(&mistakable);
        put_best(&flat(&scores), SCORES, notes);
    }
}

/// The best of a list that is said to have so many scores.
fn put_best(floats: &[f32], count: usize, notes: &mut Vec<Note>) {
    let scores = floats.chunks_exact(2).map(|pair| (pair[0], pair[1])).collect::<Vec<_>>();
    let answer = match count {
        _ if count > SCORES => refused_best(1),
        _ if 2 * count != floats.len() => refused_best(2),
        _ => answers::best(&scores),
    };
    let note = Note::new(Entry::Best, answer.number).table(floats);
    notes.push(note.put(&count).put(&answer));
}

fn flat(scores: &[Pair]) -> Vec<f32> {
    scores.iter().flat_map(|&(major, minor)| [major, minor]).collect()
}

/// Each comparison of these suites leaves a note.
fn run_suites(suites: &[Recorded]) {
    let settings = Settings { seed: SEED, count: Some(DAYS), case: None };
    for (name, suite) in suites {
        let mut run = Run::new(name, &settings);
        suite(&mut run);
        assert_eq!(run.failed, 0, "what is recorded is right");
    }
}
