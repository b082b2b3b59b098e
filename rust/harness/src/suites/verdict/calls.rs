//! The calls of verdict and score, on guarded input, compared in all that they
//! give and leave.
use crate::answers::score_bits;
use crate::boundary::{self, lent, lent_day};
use crate::day::Day;
use crate::day_file::{self, DayFile};
use crate::plan::{Plan, rows};
use crate::random::Random;
use crate::reading::Layout;
use crate::recording::{Entry, Note, note};
use crate::run::{Outcome, wanted};
use crate::schedule::Schedule;
use crate::scores::{INFINITE, score_of};
use oracle::{Problem, calls};
use port::guarded::Guarded;
use port::{Scheduling, Score, ScoreAnswer, ScoreTables, Solution, VerdictAnswer};

/// The kinds of a solution. Any other is Invalid.
pub const SCHEDULING: u32 = 1;
pub const COMPLETE: u32 = 2;

#[derive(Debug, Clone, Copy, PartialEq, Eq)]
pub enum Call {
    SatisfiesScheduling,
    ScheduleIsFeasible,
    SatisfiesAssignment,
    IsFeasible,
    Evaluate { solution: u32 },
}

#[derive(Debug, Clone, Copy, PartialEq, Eq)]
pub enum Answer {
    Verdict(VerdictAnswer),
    Score(ScoreAnswer),
}

impl Call {
    /// All of them, with a solution of this kind.
    pub fn all(solution: u32) -> [Self; 5] {
        [
            Self::SatisfiesScheduling,
            Self::ScheduleIsFeasible,
            Self::SatisfiesAssignment,
            Self::IsFeasible,
            Self::Evaluate { solution },
        ]
    }

    pub fn name(self) -> &'static str {
        match self {
            Self::SatisfiesScheduling => "satisfies_constraints_scheduling",
            Self::ScheduleIsFeasible => "schedule_is_feasible",
            Self::SatisfiesAssignment => "satisfies_constraints_assignment",
            Self::IsFeasible => "is_feasible",
            Self::Evaluate { .. } => "evaluate",
        }
    }

    fn entry(self) -> Entry {
        match self {
            Self::SatisfiesScheduling => Entry::SatisfiesConstraintsScheduling,
            Self::ScheduleIsFeasible => Entry::ScheduleIsFeasible,
            Self::SatisfiesAssignment => Entry::SatisfiesConstraintsAssignment,
            Self::IsFeasible => Entry::IsFeasible,
            Self::Evaluate { .. } => Entry::Evaluate,
        }
    }

    pub fn reads_schedule(self) -> bool {
        !matches!(self, Self::Evaluate { solution } if solution != SCHEDULING && solution != COMPLETE)
    }

    pub fn reads_plan(self) -> bool {
        match self {
            Self::SatisfiesScheduling | Self::ScheduleIsFeasible => false,
            Self::SatisfiesAssignment | Self::IsFeasible => true,
            Self::Evaluate { solution } => solution == COMPLETE,
        }
    }

    pub fn reads_tables(self) -> bool {
        matches!(self, Self::Evaluate { .. })
    }

    /// A number and zeros.
    pub fn refused(self, number: u32) -> Answer {
        match self {
            Self::Evaluate { .. } => {
                Answer::Score(ScoreAnswer { number, score: Score { major: 0, minor: 0 } })
            }
            _ => Answer::Verdict(VerdictAnswer { number, holds: 0 }),
        }
    }
}

/// Who says what the answers are to be.
pub struct Judge<'a> {
    pub day: &'a Day,
    pub problem: &'a Problem,
    /// The lent powers are those that the Rust works out. Beside other ones a
    /// second reading works out the score of what the Rust finds feasible.
    pub has_own_powers: bool,
}

impl Judge<'_> {
    /// The answer of a call that is not refused.
    pub fn answer(&self, call: Call, schedule: &Schedule, plan: &Plan) -> Answer {
        let (day, problem) = (self.day, self.problem);
        let verdict =
            |holds: bool| Answer::Verdict(VerdictAnswer { number: 0, holds: holds.into() });
        let slots = || &schedule[..day.choices];
        match call {
            Call::SatisfiesScheduling => verdict(calls::satisfies_scheduling(problem, slots())),
            Call::ScheduleIsFeasible => verdict(calls::schedule_is_feasible(problem, slots())),
            Call::SatisfiesAssignment => {
                verdict(calls::satisfies_assignment(problem, slots(), &rows(day, plan)))
            }
            Call::IsFeasible => {
                verdict(calls::plan_is_feasible(problem, slots(), &rows(day, plan)))
            }
            Call::Evaluate { .. } => {
                let schedule = call.reads_schedule().then(slots);
                let plan = call.reads_plan().then(|| rows(day, plan));
                let score = score_bits(self.score(schedule, plan.as_ref()));
                Answer::Score(ScoreAnswer { number: 0, score })
            }
        }
    }

    fn score(&self, schedule: Option<&[Option<usize>]>, plan: Option<&oracle::Plan>) -> (f32, f32) {
        match (schedule, plan) {
            (Some(schedule), Some(plan)) if !self.has_own_powers => {
                let is_feasible = calls::plan_is_feasible(self.problem, schedule, plan);
                if is_feasible { score_of(self.day, plan) } else { INFINITE }
            }
            _ => calls::evaluate(self.problem, schedule, plan),
        }
    }
}

pub struct Calls<'a> {
    day: &'a Day,
    lent_day: Guarded<u8>,
    schedule: Guarded<u8>,
    plan: Guarded<u8>,
    greedy: u32,
    preferences: Guarded<u32>,
    powers: Guarded<f32>,
}

impl<'a> Calls<'a> {
    pub fn new(random: &mut Random, day: &'a Day, schedule: &Schedule, plan: &[u8]) -> Self {
        let own = boundary::schedule(random, day, schedule);
        let lent = [lent_day(random, day), lent(random, Layout::Schedule, &own)];
        Self::lent(random, day, lent, plan)
    }

    /// The day and the schedule are lent as these bytes.
    pub fn lent(
        random: &mut Random,
        day: &'a Day,
        [lent_day, schedule]: [Guarded<u8>; 2],
        plan: &[u8],
    ) -> Self {
        Self {
            day,
            lent_day,
            schedule,
            plan: Guarded::holding(plan),
            greedy: boundary::setting(random, day.greedy),
            preferences: Guarded::holding(&day.preferences),
            powers: Guarded::holding(&day.powers),
        }
    }

    /// The same with this number for the greedy setting.
    pub fn with_greedy(self, greedy: u32) -> Self {
        Self { greedy, ..self }
    }

    /// Makes the call: it must give this answer and change nothing.
    pub fn gives(&mut self, call: Call, answer: Answer) -> Outcome {
        note(|| self.noted(call, answer));
        day_file::note(|| self.day_file(call));
        let found = self.make(call);
        let input = || {
            let (day, schedule, plan) = (self.day, self.schedule.now(), self.plan.now());
            format!("{call:?} of {day:?} schedule {schedule:?} plan {plan:?}")
        };
        wanted(found, answer, input)?;
        let bytes = [&self.lent_day, &self.schedule, &self.plan].map(Guarded::changed);
        let changes = (bytes, self.preferences.changed(), self.powers.changed());
        wanted(changes, ([None; 3], None, None), input)
    }

    /// What a call uses.
    fn day_file(&self, call: Call) -> DayFile {
        let name = match call {
            Call::Evaluate { solution } => format!("evaluate of a solution of kind {solution}"),
            _ => call.name().to_owned(),
        };
        let file = DayFile::new(name, self.day);
        let file = match self.schedule.now().try_into() {
            Ok(entries) if call.reads_schedule() => {
                file.trail(&[boundary::slots(&Scheduling { entries })])
            }
            _ => file.unless(call.reads_schedule(), "the schedule has another length"),
        };
        let file = if call.reads_plan() { file.plan(self.plan.now()) } else { file };
        let is_other = self.lent_day.now().len() != Layout::Day.named_length();
        file.unless(is_other, "the bytes of the day have another length")
    }

    fn noted(&self, call: Call, answer: Answer) -> Note {
        let note = |entry, number| Note::new(entry, number).day(self.day, self.lent_day.now());
        match (call, answer) {
            (Call::Evaluate { solution }, Answer::Score(answer)) => {
                let is_infinite = answer.score == port::infinite();
                let is_usual = call.reads_plan() && !self.day.greedy;
                let note = note(call.entry(), answer.number).known_by(is_infinite);
                let note = note.about((!is_usual).then_some(solution.min(COMPLETE + 1)));
                let note = note.put(&solution).table(self.schedule.now());
                let note = note.table(self.plan.now()).put(&self.greedy);
                note.table(self.preferences.now()).table(self.powers.now()).put(&answer)
            }
            (_, Answer::Verdict(answer)) => {
                let note = note(call.entry(), answer.number).known_by(answer.holds == 1);
                let note = note.about(self.lone_kind(call)).table(self.schedule.now());
                let note = if call.reads_plan() { note.table(self.plan.now()) } else { note };
                note.put(&answer)
            }
            _ => unreachable!("each call has its own answer"),
        }
    }

    /// The kind of the constraints that the call tests, where it is one alone.
    fn lone_kind(&self, call: Call) -> Option<u32> {
        let list = match call {
            Call::SatisfiesScheduling => &self.day.scheduling,
            Call::SatisfiesAssignment => &self.day.assignment,
            _ => return None,
        };
        let kind = list.first()?.kind;
        list.iter().all(|constraint| constraint.kind == kind).then_some(kind)
    }

    fn make(&mut self, call: Call) -> Answer {
        let Self { lent_day: day, schedule, plan, .. } = self;
        let (day, schedule, plan) = (day.lend(), schedule.lend(), plan.lend());
        Answer::Verdict(match call {
            Call::SatisfiesScheduling => port::satisfies_constraints_scheduling(day, schedule),
            Call::ScheduleIsFeasible => port::schedule_is_feasible(day, schedule),
            Call::SatisfiesAssignment => {
                port::satisfies_constraints_assignment(day, schedule, plan)
            }
            Call::IsFeasible => port::is_feasible(day, schedule, plan),
            Call::Evaluate { solution: kind } => {
                let solution = Solution { kind, schedule: schedule.into(), plan: plan.into() };
                let tables = ScoreTables {
                    preferences: self.preferences.lend().into(),
                    powers: self.powers.lend().into(),
                };
                return Answer::Score(port::evaluate(day, solution, self.greedy, tables));
            }
        })
    }
}
