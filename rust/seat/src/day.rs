//! A day in the form of the library, from statements that fit together.
use crate::constraints;
use crate::entity::{Entity, Names, Sizes};
use crate::source::{Fault, Located};
use crate::statements::{Choice, Move, Seat, Statements};
use port::{Constraint, InputData, Scheduling};
use std::array;
use std::collections::BTreeMap;

/// How many choices a schedule has room for.
const CHOICES: usize = 32;

/// A plan as a file gives it.
#[derive(Debug)]
pub enum GivenPlan {
    /// A value for each edge of the model, in the order of the edges.
    Values(Located<Vec<i32>>),
    /// Who sits where, in any order.
    Seats(Vec<Located<Seat>>),
}

/// What a file says. The lines stay beside it, for what a refusal has to say.
#[derive(Debug)]
pub struct Day {
    pub input: InputData,
    pub sizes: Sizes,
    pub choosers: Located<usize>,
    pub slots: Located<usize>,
    pub choices: Vec<Located<Choice>>,
    pub max_preference: Located<u32>,
    pub rows: Vec<Located<Vec<u32>>>,
    pub preferences: Vec<u32>,
    pub powers: Located<Vec<f32>>,
    pub costs: Located<Vec<i64>>,
    pub scheduling: Vec<Located<Constraint>>,
    pub assignment: Vec<Located<Constraint>>,
    pub groups: Vec<Located<Vec<u32>>>,
    pub levels: Option<Located<Vec<u32>>>,
    pub bound: u32,
    pub entries: Located<Vec<u8>>,
    pub moves: Vec<Located<Move>>,
    pub limit: u32,
    pub plan: Option<GivenPlan>,
    pub is_greedy: bool,
    pub names: Names,
}

impl Day {
    pub fn read(bytes: &[u8]) -> Result<Self, Fault> {
        let statements = Statements::read(bytes)?;
        let day = Self::of(statements)?;
        day.has_right_tables()?;
        day.has_right_operands()?;
        day.has_right_seats()?;
        Ok(day)
    }

    fn of(own: Statements) -> Result<Self, Fault> {
        let last = own.last;
        let plan = given_plan(own.values, own.seats)?;
        let choosers = needed("choosers", last, own.choosers)?;
        let slots = needed("slots", last, own.slots)?;
        let max_preference = needed("max_preference", last, own.max_preference)?;
        let sizes =
            Sizes { choosers: choosers.value, choices: own.choices.len(), slots: slots.value };
        let mut day = Self {
            input: EMPTY,
            sizes,
            choosers,
            slots,
            max_preference,
            preferences: own.preferences.iter().flat_map(|row| row.value.clone()).collect(),
            powers: needed("powers", last, own.powers)?,
            costs: needed("costs", last, own.costs)?,
            entries: needed("schedule", last, own.schedule)?,
            limit: needed("limit", last, own.limit)?.value,
            names: Names::new(&own.names, sizes)?,
            choices: own.choices,
            rows: own.preferences,
            scheduling: own.scheduling,
            assignment: own.assignment,
            groups: own.groups,
            levels: own.levels,
            bound: own.bound.map_or(0, |bound| bound.value),
            moves: own.moves,
            plan,
            is_greedy: own.greedy.is_some(),
        };
        day.input = day.input();
        Ok(day)
    }

    /// Of what a struct has no room for the front is taken: the count beside it
    /// tells that there is more, and the library refuses it.
    fn input(&self) -> InputData {
        let choices = || self.choices.iter().map(|choice| &choice.value);
        let constraints = |list: &[Located<Constraint>]| {
            filled(&list.iter().map(|constraint| constraint.value).collect::<Vec<_>>())
        };
        let groups = self.groups.iter().map(|group| &group.value[..]).collect::<Vec<_>>();
        let lengths = groups.iter().map(|group| size(group.len())).collect::<Vec<_>>();
        InputData {
            choosers: size(self.sizes.choosers),
            choices: size(self.sizes.choices),
            slots: size(self.sizes.slots),
            max_preference: self.max_preference.value,
            scheduling_count: size(self.scheduling.len()),
            assignment_count: size(self.assignment.len()),
            groups: size(groups.len()),
            mins: filled(&choices().map(|choice| choice.min).collect::<Vec<_>>()),
            maxs: filled(&choices().map(|choice| choice.max).collect::<Vec<_>>()),
            optional: filled(&choices().map(|one| one.is_optional.into()).collect::<Vec<_>>()),
            lengths: filled(&lengths),
            members: filled(&groups.concat()),
            scheduling: constraints(&self.scheduling),
            assignment: constraints(&self.assignment),
        }
    }

    /// A move in words. A slot that the day has not has no name either.
    pub fn move_words(&self, own: Move) -> String {
        let slot = own.entry.checked_sub(1).map(usize::from);
        let slot = slot.map_or("no slot".to_owned(), |slot| self.names.full(Entity::Slot, slot));
        format!("move of {} to {slot}", self.names.full(Entity::Choice, own.choice))
    }

    pub fn schedule(&self) -> Scheduling {
        Scheduling { entries: filled(&self.entries.value) }
    }

    /// Each table has an entry for all that it is about.
    fn has_right_tables(&self) -> Result<(), Fault> {
        let Sizes { choosers, choices, .. } = self.sizes;
        for row in &self.rows {
            is_as_long(row, &row.value, choices, "preferences", "choices")?;
        }
        // Without choices a row would be empty.
        if self.rows.len() < choosers && choices > 0 {
            let missing = self.rows.len();
            let reason = format!("of {choosers} choosers, chooser {missing} has no preferences");
            return Err(self.choosers.fault(reason));
        }
        if let Some(row) = self.rows.get(choosers) {
            return Err(row.fault(format!("there are {choosers} choosers: this row is of none")));
        }
        let levels = self.max_preference.value as usize + 1;
        is_as_long(&self.powers, &self.powers.value, levels, "powers", "preferences from 0")?;
        is_as_long(&self.costs, &self.costs.value, levels, "costs", "preferences from 0")?;
        is_as_long(&self.entries, &self.entries.value, choices, "slots", "choices")
    }

    /// What constraints, groups and moves name is the day's. Whether the day has
    /// the slot of a schedule or a move is for the library to say.
    fn has_right_operands(&self) -> Result<(), Fault> {
        for own in self.scheduling.iter().chain(&self.assignment) {
            constraints::fits(&own.value, self.sizes).map_err(|reason| own.fault(reason))?;
        }
        let has_choice = |choice| self.sizes.has(Entity::Choice, choice);
        for own in &self.groups {
            let mut members = own.value.iter();
            members
                .try_for_each(|&member| has_choice(member as usize))
                .map_err(|reason| own.fault(reason))?;
        }
        for own in &self.moves {
            has_choice(own.value.choice).map_err(|reason| own.fault(reason))?;
            if own.value.choice >= CHOICES {
                return Err(own.fault(format!("a schedule has {CHOICES} choices at most")));
            }
        }
        Ok(())
    }

    /// Seats are the day's, and a chooser has one in a slot.
    fn has_right_seats(&self) -> Result<(), Fault> {
        let Some(GivenPlan::Seats(seats)) = &self.plan else {
            return Ok(());
        };
        let mut lines = BTreeMap::new();
        for own in seats {
            let Seat { chooser, slot, choice } = own.value;
            let operands =
                [(Entity::Chooser, chooser), (Entity::Slot, slot), (Entity::Choice, choice)];
            for (entity, number) in operands {
                self.sizes.has(entity, number).map_err(|reason| own.fault(reason))?;
            }
            if let Some(line) = lines.insert((chooser, slot), own.line) {
                let reason = format!("line {line} seats chooser {chooser} in slot {slot} already");
                return Err(own.fault(reason));
            }
        }
        Ok(())
    }
}

/// A day without anything, until the statements are looked at.
const EMPTY: InputData = InputData {
    choosers: 0,
    choices: 0,
    slots: 0,
    max_preference: 0,
    scheduling_count: 0,
    assignment_count: 0,
    groups: 0,
    mins: [0; 32],
    maxs: [0; 32],
    optional: [0; 32],
    lengths: [0; 16],
    members: [0; 32],
    scheduling: [NO_CONSTRAINT; 32],
    assignment: [NO_CONSTRAINT; 32],
};

const NO_CONSTRAINT: Constraint =
    Constraint { kind: 0, left: 0, target_case: 0, target: 0, extra_case: 0, extra: 0 };

/// A plan is given by values or by seats, not by both.
fn given_plan(
    values: Option<Located<Vec<i32>>>,
    seats: Vec<Located<Seat>>,
) -> Result<Option<GivenPlan>, Fault> {
    match (values, seats.first()) {
        (Some(values), Some(seat)) => {
            let reason = "a plan is given by values or by seats, not by both";
            Err(Fault { line: values.line.max(seat.line), reason: reason.to_owned() })
        }
        (Some(values), None) => Ok(Some(GivenPlan::Values(values))),
        (None, Some(_)) => Ok(Some(GivenPlan::Seats(seats))),
        (None, None) => Ok(None),
    }
}

/// A size in the 32 bits that it has in a day. One that is too large for them is
/// too large for the library as well, which refuses the largest.
fn size(count: usize) -> u32 {
    u32::try_from(count).unwrap_or(u32::MAX)
}

fn needed<T>(name: &str, last: usize, line: Option<T>) -> Result<T, Fault> {
    let reason = format!("the file ends without a line '{name}'");
    line.ok_or(Fault { line: last, reason })
}

fn is_as_long<T, V>(
    line: &Located<T>,
    table: &[V],
    wanted: usize,
    entries: &str,
    about: &str,
) -> Result<(), Fault> {
    let found = table.len();
    if found == wanted {
        return Ok(());
    }
    Err(line.fault(format!("there are {found} {entries} for {wanted} {about}")))
}

/// The front, and zeros behind it.
fn filled<T: Copy + Default, const N: usize>(front: &[T]) -> [T; N] {
    array::from_fn(|place| front.get(place).copied().unwrap_or_default())
}
