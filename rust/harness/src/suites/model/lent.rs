//! The buffers that a model and its plan are written into, guarded, with what
//! must stand in each.
use crate::random::Random;
use crate::reading::Buffer;
use crate::recording::Note;
use crate::run::Outcome;
use crate::suites::kept::Kept;
use oracle::{Edge, Plan, Record};
use port::ModelBuffers;

/// What check_values is lent beside the tables and the slot lists. The model
/// takes those before the values.
pub const BUFFERS: [Buffer; 10] = [
    Buffer::Supplies,
    Buffer::EdgeTable,
    Buffer::EdgeTable,
    Buffer::EdgeTable,
    Buffer::EdgeTable,
    Buffer::GroupEntries,
    Buffer::GroupEnds,
    Buffer::BlockedEntries,
    Buffer::EdgeValues,
    Buffer::Plan,
];
/// How many of them the model takes.
pub const OF_MODEL: usize = 8;
/// The place of the values and of the plan among them.
pub const VALUES: usize = 8;
pub const PLAN: usize = 9;

/// A length for each of the buffers.
pub type Lengths = [usize; BUFFERS.len()];

/// Each its named length, or somewhat more.
pub fn random_lengths(random: &mut Random) -> Lengths {
    BUFFERS.map(|buffer| buffer.named_length() + random.pick(&[0, 0, 0, 1, 40]))
}

pub struct Lent {
    supplies: Kept<i32>,
    from: Kept<u16>,
    to: Kept<u16>,
    max: Kept<u32>,
    cost: Kept<i64>,
    entries: Kept<u16>,
    ends: Kept<u16>,
    blocked: Kept<u16>,
    plan: Kept<u8>,
}

impl Lent {
    /// Patterned buffers, which must stay as they are.
    pub fn new(lengths: &Lengths) -> Self {
        Self {
            supplies: Kept::new(lengths[0]),
            from: Kept::new(lengths[1]),
            to: Kept::new(lengths[2]),
            max: Kept::new(lengths[3]),
            cost: Kept::new(lengths[4]),
            entries: Kept::new(lengths[5]),
            ends: Kept::new(lengths[6]),
            blocked: Kept::new(lengths[7]),
            plan: Kept::new(lengths[PLAN]),
        }
    }

    /// Puts the pattern back everywhere.
    pub fn reset(&mut self) {
        self.supplies.reset();
        self.from.reset();
        self.to.reset();
        self.max.reset();
        self.cost.reset();
        self.entries.reset();
        self.ends.reset();
        self.blocked.reset();
        self.plan.reset();
    }

    /// From now on the model must stand in front in its buffers.
    pub fn expect_model(&mut self, model: &Record) {
        fn edges<T>(model: &Record, field: fn(&Edge) -> T) -> Vec<T> {
            model.edges.iter().map(field).collect()
        }
        let end = |total: &mut usize, group: &Vec<usize>| {
            *total += group.len();
            Some(*total as u16)
        };
        self.supplies.expect(&model.supply);
        self.from.expect(&edges(model, |edge| edge.from as u16));
        self.to.expect(&edges(model, |edge| edge.to as u16));
        self.max.expect(&edges(model, |edge| edge.max as u32));
        self.cost.expect(&edges(model, |edge| edge.cost));
        self.entries.expect(&places(model.groups.iter().flatten()));
        self.ends.expect(&model.groups.iter().scan(0, end).collect::<Vec<_>>());
        self.blocked.expect(&places(&model.blocked));
    }

    /// From now on the plan must stand in front in its buffer.
    pub fn expect_plan(&mut self, plan: &Plan) {
        let choices = plan.iter().flatten().map(|&choice| choice as u8);
        self.plan.expect(&choices.collect::<Vec<_>>());
    }

    /// The buffers of the model, and that of the plan.
    pub fn lend(&mut self) -> (ModelBuffers<'_>, &mut [u8]) {
        let model = ModelBuffers {
            supplies: self.supplies.buffer.lend().into(),
            from: self.from.buffer.lend().into(),
            to: self.to.buffer.lend().into(),
            max: self.max.buffer.lend().into(),
            cost: self.cost.buffer.lend().into(),
            entries: self.entries.buffer.lend().into(),
            ends: self.ends.buffer.lend().into(),
            blocked: self.blocked.buffer.lend().into(),
        };
        (model, self.plan.buffer.lend())
    }

    /// The buffers of the model, as they stand and as they must stand.
    pub fn noted_model(&self, note: Note) -> Note {
        let note = self.supplies.noted(note);
        let note = self.to.noted(self.from.noted(note));
        let note = self.cost.noted(self.max.noted(note));
        let note = self.ends.noted(self.entries.noted(note));
        self.blocked.noted(note)
    }

    pub fn noted_plan(&self, note: Note) -> Note {
        self.plan.noted(note)
    }

    /// What must stand in the buffers does, and nothing around them is changed.
    pub fn is_right(&self, input: &impl Fn() -> String) -> Outcome {
        self.supplies.is_right("supplies", input)?;
        self.from.is_right("from", input)?;
        self.to.is_right("to", input)?;
        self.max.is_right("max", input)?;
        self.cost.is_right("cost", input)?;
        self.entries.is_right("entries", input)?;
        self.ends.is_right("ends", input)?;
        self.blocked.is_right("blocked", input)?;
        self.plan.is_right("plan", input)
    }
}

fn places<'a>(edges: impl IntoIterator<Item = &'a usize>) -> Vec<u16> {
    edges.into_iter().map(|&edge| edge as u16).collect()
}
