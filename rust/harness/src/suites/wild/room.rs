//! The memory that the slices of a call are put into, each between two
//! inaccessible pages, and the calls on them.
use super::wreck::MOST_BYTES;
use crate::call::{Call, Name, Numbers};
use crate::random::Random;
use crate::recording::{Entry, Put};
use port::pages::{Edge, Pages};
use port::{ModelBuffers, ModelTables, ScoreTables, Solution};

/// Memory for each of the slices, at the place of its name.
pub struct Room(Vec<Pages>);

/// The fields of an answer, put down in bytes. The number comes first.
pub type Fields = Vec<u8>;

pub fn fields(answer: &impl Put) -> Fields {
    let mut bytes = Vec::new();
    answer.put(&mut bytes);
    bytes
}

impl Room {
    pub fn new() -> Self {
        Self((0..=Name::Scores as usize).map(|_| Pages::new(MOST_BYTES)).collect())
    }

    /// The memory of a slice.
    pub fn pages(&self, name: Name) -> &Pages {
        &self.0[name as usize]
    }

    /// Puts the slices of a call to the end of their memory, all of them, or to its
    /// beginning. A slice of no elements may be at NULL.
    fn put(&mut self, random: &mut Random, call: &Call) {
        let edge = random.pick(&[Edge::Begin, Edge::End]);
        for (name, bytes) in &call.slices {
            let is_null = bytes.is_empty() && random.chance(50);
            self.0[*name as usize].put(bytes, if is_null { Edge::Null } else { edge });
        }
    }

    /// Makes the call.
    pub fn make(&mut self, random: &mut Random, call: &Call) -> Fields {
        self.put(random, call);
        match call.entry {
            Entry::Build | Entry::Update | Entry::SlotList => self.state(call),
            Entry::Model | Entry::CheckValues => self.model(call),
            Entry::Begin | Entry::Tell => self.search(call),
            Entry::Evaluate => self.score(call),
            Entry::Best => {
                let [scores] = self.of([Name::Scores]);
                fields(&port::best(scores, call.numbers.count))
            }
            Entry::ChoosersOrdered
            | Entry::ChoicesOrdered
            | Entry::IsInChoice
            | Entry::ChoiceOf => self.roster(call),
            _ => self.verdict(call),
        }
    }

    fn of<const N: usize>(&mut self, names: [Name; N]) -> [&mut Pages; N] {
        self.0.get_disjoint_mut(names.map(|name| name as usize)).expect("different names")
    }

    fn state(&mut self, call: &Call) -> Fields {
        let [day, state, schedule, lists] =
            self.of([Name::Day, Name::State, Name::Schedule, Name::Lists]);
        match call.entry {
            Entry::Build => fields(&port::build(day, schedule, lists)),
            Entry::Update => fields(&port::update(day, state, schedule, lists)),
            _ => fields(&port::slot_list(day, state, lists, call.numbers.slot)),
        }
    }

    #[rustfmt::skip] // What belongs together on a line.
    fn model(&mut self, call: &Call) -> Fields {
        let [
            day, state, preferences, costs, lists, values,
            supplies, from, to, max, cost, entries, ends, blocked, plan,
        ] = self.of([
            Name::Day, Name::State, Name::Preferences, Name::Costs, Name::Lists, Name::Values,
            Name::Supplies, Name::From, Name::To, Name::Max, Name::Cost,
            Name::Entries, Name::Ends, Name::Blocked, Name::Plan,
        ]);
        let limit = call.numbers.limit;
        let tables = ModelTables {
            preferences: preferences.into(), costs: costs.into(), lists: lists.into(),
        };
        let buffers = ModelBuffers {
            supplies: supplies.into(),
            from: from.into(), to: to.into(), max: max.into(), cost: cost.into(),
            entries: entries.into(), ends: ends.into(), blocked: blocked.into(),
        };
        if call.entry == Entry::Model {
            return fields(&port::model(day, state, limit, tables, buffers));
        }
        fields(&port::check_values(day, state, limit, tables, values, buffers, plan))
    }

    fn roster(&mut self, call: &Call) -> Fields {
        let [day, plan, roster] = self.of([Name::Day, Name::Plan, Name::Roster]);
        let Numbers { chooser, choice, slot, .. } = call.numbers;
        match call.entry {
            Entry::ChoosersOrdered => fields(&port::choosers_ordered(day, plan, choice, roster)),
            Entry::ChoicesOrdered => fields(&port::choices_ordered(day, plan, chooser, roster)),
            Entry::IsInChoice => fields(&port::is_in_choice(day, plan, chooser, choice)),
            _ => fields(&port::choice_of(day, plan, chooser, slot)),
        }
    }

    fn search(&mut self, call: &Call) -> Fields {
        let [day, schedule, search, levels, cached, plan] = self.of([
            Name::Day,
            Name::Schedule,
            Name::Search,
            Name::Levels,
            Name::Cached,
            Name::Plan,
        ]);
        let Numbers { bound, greedy, result, .. } = call.numbers;
        if call.entry == Entry::Begin {
            return fields(&port::begin(day, schedule, levels, bound, greedy, cached));
        }
        fields(&port::tell(day, search, levels, result, plan))
    }

    fn verdict(&mut self, call: &Call) -> Fields {
        let [day, schedule, plan] = self.of([Name::Day, Name::Schedule, Name::Plan]);
        fields(&match call.entry {
            Entry::SatisfiesConstraintsScheduling => {
                port::satisfies_constraints_scheduling(day, schedule)
            }
            Entry::ScheduleIsFeasible => port::schedule_is_feasible(day, schedule),
            Entry::SatisfiesConstraintsAssignment => {
                port::satisfies_constraints_assignment(day, schedule, plan)
            }
            Entry::IsFeasible => port::is_feasible(day, schedule, plan),
            _ => unreachable!("all other entries are called elsewhere"),
        })
    }

    fn score(&mut self, call: &Call) -> Fields {
        let [day, schedule, plan, preferences, powers] =
            self.of([Name::Day, Name::Schedule, Name::Plan, Name::Preferences, Name::Powers]);
        let Numbers { solution: kind, greedy, .. } = call.numbers;
        let solution = Solution { kind, schedule: schedule.into(), plan: plan.into() };
        let tables = ScoreTables { preferences: preferences.into(), powers: powers.into() };
        fields(&port::evaluate(day, solution, greedy, tables))
    }
}
