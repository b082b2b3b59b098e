//! The flow model that the library lays out, and edge values for it.
use crate::entity::Sizes;
use crate::statements::Seat;
use port::{ModelAnswer, ModelBuffers};

/// The named lengths of the buffers.
const SUPPLIES: usize = 552;
pub const EDGES: usize = 2_080;
const ENTRIES: usize = 4_096;
const ENDS: usize = 2_048;
const BLOCKED: usize = 4_096;

/// What a node stands for.
#[derive(Debug, Clone, Copy, PartialEq, Eq)]
pub enum Node {
    Chooser { chooser: usize, slot: usize },
    Choice(usize),
    Slot(usize),
}

/// What an edge stands for.
#[derive(Debug, Clone, Copy, PartialEq, Eq)]
pub enum Meaning {
    /// Its value is 1 where the chooser sits there.
    Seat(Seat),
    /// Its value is how many sit in the choice beyond its min.
    BeyondMin { choice: usize, slot: usize },
}

#[derive(Debug, Clone, Copy)]
pub struct Edge {
    pub from: u16,
    pub to: u16,
    pub max: u32,
    pub cost: i64,
    pub meaning: Meaning,
}

/// The model of a state at a limit.
#[derive(Debug, Clone)]
pub struct Model {
    pub limit: u32,
    pub supplies: Vec<i32>,
    pub edges: Vec<Edge>,
    pub groups: Vec<Vec<u16>>,
    pub blocked: Vec<u16>,
}

impl Sizes {
    pub fn nodes(self) -> usize {
        self.choosers * self.slots + self.choices + self.slots
    }

    pub fn node(self, number: usize) -> Node {
        let seats = self.choosers * self.slots;
        match number {
            _ if number < seats => {
                Node::Chooser { chooser: number / self.slots, slot: number % self.slots }
            }
            _ if number < seats + self.choices => Node::Choice(number - seats),
            _ => Node::Slot(number - seats - self.choices),
        }
    }

    fn meaning(self, from: u16, to: u16) -> Meaning {
        match (self.node(from.into()), self.node(to.into())) {
            (Node::Chooser { chooser, slot }, Node::Choice(choice)) => {
                Meaning::Seat(Seat { chooser, slot, choice })
            }
            (Node::Choice(choice), Node::Slot(slot)) => Meaning::BeyondMin { choice, slot },
            nodes => unreachable!("no edge joins {nodes:?}"),
        }
    }
}

impl Model {
    /// What a model that was not refused left in its buffers.
    pub fn new(limit: u32, sizes: Sizes, answer: &ModelAnswer, buffers: &Buffers) -> Self {
        let edge = |place: usize| {
            let (from, to) = (buffers.from[place], buffers.to[place]);
            let (max, cost) = (buffers.max[place], buffers.cost[place]);
            Edge { from, to, max, cost, meaning: sizes.meaning(from, to) }
        };
        let ends = &buffers.ends[..answer.groups as usize];
        let starts = [0].into_iter().chain(ends.iter().copied());
        let parts = starts.zip(ends).map(|(start, &end)| usize::from(start)..usize::from(end));
        Self {
            limit,
            supplies: buffers.supplies[..sizes.nodes()].to_vec(),
            edges: (0..answer.edges as usize).map(edge).collect(),
            groups: parts.map(|part| buffers.entries[part].to_vec()).collect(),
            blocked: buffers.blocked[..answer.blocked as usize].to_vec(),
        }
    }

    /// The values of a plan by seats: 1 for each seat, and for each choice how many
    /// sit there beyond its min. A seat that has no edge has no value.
    pub fn values(&self, seats: &[Seat], mins: &[u32]) -> Vec<i32> {
        let value = |edge: &Edge| match edge.meaning {
            Meaning::Seat(own) => seats.contains(&own).into(),
            Meaning::BeyondMin { choice, slot } => {
                let here = |seat: &&Seat| seat.choice == choice && seat.slot == slot;
                seats.iter().filter(here).count() as i32 - mins[choice] as i32
            }
        };
        self.edges.iter().map(value).collect()
    }

    pub fn has_edge(&self, seat: Seat) -> bool {
        self.edges.iter().any(|edge| edge.meaning == Meaning::Seat(seat))
    }
}

/// The buffers of a model, of their named lengths.
pub struct Buffers {
    supplies: Vec<i32>,
    from: Vec<u16>,
    to: Vec<u16>,
    max: Vec<u32>,
    cost: Vec<i64>,
    entries: Vec<u16>,
    ends: Vec<u16>,
    blocked: Vec<u16>,
}

impl Buffers {
    pub fn new() -> Self {
        Self {
            supplies: vec![0; SUPPLIES],
            from: vec![0; EDGES],
            to: vec![0; EDGES],
            max: vec![0; EDGES],
            cost: vec![0; EDGES],
            entries: vec![0; ENTRIES],
            ends: vec![0; ENDS],
            blocked: vec![0; BLOCKED],
        }
    }

    pub fn lend(&mut self) -> ModelBuffers<'_> {
        ModelBuffers {
            supplies: (&mut self.supplies).into(),
            from: (&mut self.from).into(),
            to: (&mut self.to).into(),
            max: (&mut self.max).into(),
            cost: (&mut self.cost).into(),
            entries: (&mut self.entries).into(),
            ends: (&mut self.ends).into(),
            blocked: (&mut self.blocked).into(),
        }
    }
}
