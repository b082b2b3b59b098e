//! What was done with a day, and how it ended.
use crate::model::Model;
use crate::refusals::Refusal;
use crate::source::Fault;
use crate::statements::Move;

/// The choices of a slot, in the order of its list.
#[derive(Debug, Clone)]
pub struct SlotList {
    pub slot: usize,
    pub covered: u32,
    pub choices: Vec<u8>,
}

/// Who sits in a choice, upward.
#[derive(Debug)]
pub struct Roster {
    pub slot: usize,
    pub choice: usize,
    pub choosers: Vec<u8>,
}

/// How a plan was given.
#[derive(Debug)]
pub enum Origin {
    Seats,
    /// In the order of the edges, which go by these lists.
    Values(Vec<SlotList>),
}

/// A plan whose values the library accepted.
#[derive(Debug)]
pub struct Plan {
    pub origin: Origin,
    /// By slot, and within a slot by choice.
    pub rosters: Vec<Roster>,
    /// The choice of each chooser in each slot.
    pub rows: Vec<Vec<u32>>,
    /// The choices that have no slot.
    pub unscheduled: Vec<usize>,
}

#[derive(Debug, Clone, Copy)]
pub struct Score {
    pub major: f32,
    pub minor: f32,
    pub is_finite: bool,
}

/// What a search over the levels asks for first, a level or nothing, and how
/// many asks it makes at most.
#[derive(Debug, Clone, Copy)]
pub struct FirstAsk {
    pub level: Option<u32>,
    pub most_asks: u32,
}

#[derive(Debug)]
pub enum Step {
    Built(Vec<SlotList>),
    Moved {
        line: usize,
        own: Move,
        lists: Vec<SlotList>,
    },
    /// The state stayed as it was, and the run went on.
    MoveRefused {
        own: Move,
        refusal: Refusal,
    },
    Search(FirstAsk),
    Model(Model),
    Schedule {
        is_feasible: bool,
    },
    Plan(Plan),
    Verdict {
        is_feasible: bool,
    },
    Score(Score),
}

/// Why a run ended before all was done.
#[derive(Debug)]
pub enum Stop {
    Refused(Refusal),
    Wrong(Fault),
}

#[derive(Debug)]
pub struct Report {
    pub steps: Vec<Step>,
    pub stop: Option<Stop>,
}

/// The exit codes.
pub const WRONG: u8 = 1;
const REFUSED: u8 = 2;
const NOT_FEASIBLE: u8 = 3;

impl Report {
    pub fn exit_code(&self) -> u8 {
        match self.stop {
            Some(Stop::Wrong(_)) => WRONG,
            Some(Stop::Refused(_)) => REFUSED,
            None if self.refused_moves().next().is_some() => REFUSED,
            None if self.steps.iter().all(Step::is_good) => 0,
            None => NOT_FEASIBLE,
        }
    }

    /// The moves that were passed over.
    pub fn refused_moves(&self) -> impl Iterator<Item = &Refusal> {
        self.steps.iter().filter_map(|step| match step {
            Step::MoveRefused { refusal, .. } => Some(refusal),
            _ => None,
        })
    }

    /// All that was refused, in order.
    pub fn refusals(&self) -> impl Iterator<Item = &Refusal> {
        let last = match &self.stop {
            Some(Stop::Refused(refusal)) => Some(refusal),
            _ => None,
        };
        self.refused_moves().chain(last)
    }
}

impl Step {
    fn is_good(&self) -> bool {
        match self {
            Self::Schedule { is_feasible } | Self::Verdict { is_feasible } => *is_feasible,
            Self::Score(score) => score.is_finite,
            _ => true,
        }
    }
}
