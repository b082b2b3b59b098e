//! The four calls on a plan, on guarded input, compared in all that they give
//! and leave.
use crate::day::Day;
use crate::day_file::{self, DayFile};
use crate::reading::{Asked, Layout};
use crate::recording::{Entry, Note, note};
use crate::run::{Outcome, wanted};
use crate::suites::kept::Kept;
use oracle::calls::Seated;
use port::guarded::Guarded;
use port::{ChoiceAnswer, InChoiceAnswer, RosterAnswer};

/// A call with what it is asked about.
#[derive(Debug, Clone, Copy)]
pub enum Call {
    ChoosersOrdered { choice: usize },
    ChoicesOrdered { chooser: usize },
    IsInChoice { chooser: usize, choice: usize },
    ChoiceOf { chooser: usize, slot: usize },
}

#[derive(Debug, Clone, Copy, PartialEq, Eq)]
pub enum Answer {
    Roster(RosterAnswer),
    InChoice(InChoiceAnswer),
    Choice(ChoiceAnswer),
}

impl Call {
    /// All of them, about this chooser, choice and slot.
    pub fn all(chooser: usize, choice: usize, slot: usize) -> [Self; 4] {
        [
            Self::ChoosersOrdered { choice },
            Self::ChoicesOrdered { chooser },
            Self::IsInChoice { chooser, choice },
            Self::ChoiceOf { chooser, slot },
        ]
    }

    pub fn name(self) -> &'static str {
        match self {
            Self::ChoosersOrdered { .. } => "choosers_ordered",
            Self::ChoicesOrdered { .. } => "choices_ordered",
            Self::IsInChoice { .. } => "is_in_choice",
            Self::ChoiceOf { .. } => "choice_of",
        }
    }

    pub fn asked(self) -> Vec<Asked> {
        match self {
            Self::ChoosersOrdered { choice } => vec![Asked::Choice(choice)],
            Self::ChoicesOrdered { chooser } => vec![Asked::Chooser(chooser)],
            Self::IsInChoice { chooser, choice } => {
                vec![Asked::Chooser(chooser), Asked::Choice(choice)]
            }
            Self::ChoiceOf { chooser, slot } => vec![Asked::Chooser(chooser), Asked::Slot(slot)],
        }
    }

    /// The Rust's answer, and the roster that goes with it.
    pub fn rust(self, plan: &Seated) -> (Answer, Vec<u8>) {
        match self {
            Self::ChoosersOrdered { choice } => listed(&plan.choosers_ordered(choice)),
            Self::ChoicesOrdered { chooser } => listed(&plan.choices_ordered(chooser)),
            Self::IsInChoice { chooser, choice } => {
                let found = plan.is_in_choice(chooser, choice).into();
                (Answer::InChoice(InChoiceAnswer { number: 0, found }), Vec::new())
            }
            Self::ChoiceOf { chooser, slot } => {
                let choice = plan.choice_of(chooser, slot) as u32;
                (Answer::Choice(ChoiceAnswer { number: 0, choice }), Vec::new())
            }
        }
    }

    /// A number and zeros.
    pub fn refused(self, number: u32) -> Answer {
        match self {
            Self::ChoosersOrdered { .. } | Self::ChoicesOrdered { .. } => {
                Answer::Roster(RosterAnswer { number, length: 0 })
            }
            Self::IsInChoice { .. } => Answer::InChoice(InChoiceAnswer { number, found: 0 }),
            Self::ChoiceOf { .. } => Answer::Choice(ChoiceAnswer { number, choice: 0 }),
        }
    }
}

fn listed(entries: &[usize]) -> (Answer, Vec<u8>) {
    let roster = entries.iter().map(|&entry| entry as u8).collect::<Vec<_>>();
    (Answer::Roster(RosterAnswer { number: 0, length: roster.len() as u64 }), roster)
}

pub struct Calls<'a> {
    day: &'a Day,
    lent_day: Guarded<u8>,
    plan: Guarded<u8>,
    roster: Kept<u8>,
}

impl<'a> Calls<'a> {
    /// The day is lent as these bytes.
    pub fn new(day: &'a Day, lent_day: Guarded<u8>, plan: &[u8], roster: usize) -> Self {
        Self { day, lent_day, plan: Guarded::holding(plan), roster: Kept::new(roster) }
    }

    /// Puts the pattern back into the roster.
    pub fn reset(&mut self) {
        self.roster.reset();
    }

    /// Makes the call: it must give this answer, and leave this in front in the
    /// roster and everything else as it was.
    pub fn gives(&mut self, call: Call, (answer, front): (Answer, Vec<u8>)) -> Outcome {
        self.roster.expect(&front);
        note(|| self.noted(call, answer));
        day_file::note(|| self.day_file(call));
        let found = self.make(call);
        let input = || format!("{call:?} of {:?} plan {:?}", self.day, self.plan.now());
        wanted(found, answer, input)?;
        wanted([&self.lent_day, &self.plan].map(Guarded::changed), [None; 2], input)?;
        self.roster.is_right("roster", &input)
    }

    /// What a call uses. It has no schedule.
    fn day_file(&self, call: Call) -> DayFile {
        let is_other = self.lent_day.now().len() != Layout::Day.named_length();
        let file = DayFile::new(format!("{call:?}"), self.day).plan(self.plan.now());
        file.unless(is_other, "the bytes of the day have another length")
    }

    fn noted(&self, call: Call, answer: Answer) -> Note {
        let note = |entry, number| {
            Note::new(entry, number).day(self.day, self.lent_day.now()).table(self.plan.now())
        };
        match (call, answer) {
            (Call::ChoosersOrdered { choice: asked }, Answer::Roster(answer)) => {
                let note = note(Entry::ChoosersOrdered, answer.number).put(&asked);
                self.roster.noted(note).put(&answer)
            }
            (Call::ChoicesOrdered { chooser: asked }, Answer::Roster(answer)) => {
                let note = note(Entry::ChoicesOrdered, answer.number).put(&asked);
                self.roster.noted(note).put(&answer)
            }
            (Call::IsInChoice { chooser, choice }, Answer::InChoice(answer)) => {
                let note = note(Entry::IsInChoice, answer.number).known_by(answer.found == 1);
                note.put(&chooser).put(&choice).put(&answer)
            }
            (Call::ChoiceOf { chooser, slot }, Answer::Choice(answer)) => {
                note(Entry::ChoiceOf, answer.number).put(&chooser).put(&slot).put(&answer)
            }
            _ => unreachable!("each call has its own answer"),
        }
    }

    fn make(&mut self, call: Call) -> Answer {
        let Self { lent_day: day, plan, roster, .. } = self;
        let (day, plan, roster) = (day.lend(), plan.lend(), roster.buffer.lend());
        match call {
            Call::ChoosersOrdered { choice } => {
                Answer::Roster(port::choosers_ordered(day, plan, choice, roster))
            }
            Call::ChoicesOrdered { chooser } => {
                Answer::Roster(port::choices_ordered(day, plan, chooser, roster))
            }
            Call::IsInChoice { chooser, choice } => {
                Answer::InChoice(port::is_in_choice(day, plan, chooser, choice))
            }
            Call::ChoiceOf { chooser, slot } => {
                Answer::Choice(port::choice_of(day, plan, chooser, slot))
            }
        }
    }
}
