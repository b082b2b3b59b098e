//! What a refusal by the library means for this day, in a planner's words: which
//! line is to blame, and why. The library has decided; here its reason is found.
use crate::day::{Day, GivenPlan};
use crate::entity::Entity::{Choice, Chooser, Slot};
use crate::model::{Edge, Meaning, Model, Node};
use crate::run::Scheduled;
use crate::source::Located;
use crate::statements::Seat;

/// A line, where one is to blame, and what is wrong.
type Found = (Option<usize>, String);

/// The limits on a day.
const MOST: [(usize, &str); 3] = [(64, "choosers"), (32, "choices"), (8, "slots")];
const MOST_SIZE: u32 = 1_000;
const MOST_PREFERENCE: u32 = 255;
const MOST_LEVELS: usize = 256;
const MOST_COST: i64 = 1 << 40;
const MOST_CONSTRAINTS: usize = 32;
const MOST_GROUPS: usize = 16;
const MOST_MEMBERS: usize = 32;

/// Why a day is refused by 1 to 11.
pub fn day(day: &Day, number: u32) -> Option<Found> {
    match number {
        1 => sizes(day),
        3 => choices(day),
        4 => preferences(day),
        5 => levels(day),
        6 => costs(day),
        7 => constraints(day),
        10 => groups(day),
        11 => schedule(day),
        _ => None,
    }
}

fn at<T>(own: &Located<T>, reason: String) -> Option<Found> {
    Some((Some(own.line), reason))
}

fn sizes(day: &Day) -> Option<Found> {
    let counts = [day.sizes.choosers, day.sizes.choices, day.sizes.slots];
    let choice = day.choices.get(MOST[1].0).map_or(0, |choice| choice.line);
    let lines = [day.choosers.line, choice, day.slots.line];
    let mut all = counts.into_iter().zip(MOST).zip(lines);
    let ((count, (most, word)), line) = all.find(|((count, (most, _)), _)| count > most)?;
    Some((Some(line), format!("there are {count} {word}, and a day has {most} at most")))
}

fn choices(day: &Day) -> Option<Found> {
    for (choice, own) in day.choices.iter().enumerate() {
        let (name, min, max) = (day.names.full(Choice, choice), own.value.min, own.value.max);
        if min > max {
            return at(own, format!("{name} has min {min} above max {max}"));
        }
        if max > MOST_SIZE {
            return at(own, format!("{name} has max {max}, and {MOST_SIZE} is the most"));
        }
    }
    None
}

fn preferences(day: &Day) -> Option<Found> {
    let most = day.max_preference.value;
    if most > MOST_PREFERENCE {
        let reason = format!("max_preference is {most}, and {MOST_PREFERENCE} is the most");
        return at(&day.max_preference, reason);
    }
    for (chooser, row) in day.rows.iter().enumerate() {
        let mut choices = row.value.iter().enumerate();
        if let Some((choice, preference)) = choices.find(|(_, preference)| **preference > most) {
            let (chooser, choice) =
                (day.names.full(Chooser, chooser), day.names.full(Choice, choice));
            let reason = format!(
                "the preference of {chooser} for {choice} is {preference}, above max_preference {most}"
            );
            return at(row, reason);
        }
    }
    None
}

fn levels(day: &Day) -> Option<Found> {
    let (own, most) = (day.levels.as_ref()?, day.max_preference.value);
    let levels = &own.value;
    if levels.len() > MOST_LEVELS {
        let count = levels.len();
        return at(own, format!("there are {count} levels, and {MOST_LEVELS} are the most"));
    }
    if let Some(pair) = levels.windows(2).find(|pair| pair[0] >= pair[1]) {
        let reason = format!("the levels do not ascend: {} stands before {}", pair[0], pair[1]);
        return at(own, reason);
    }
    let level = levels.iter().find(|&&level| level > most)?;
    at(own, format!("level {level} is above max_preference {most}"))
}

fn costs(day: &Day) -> Option<Found> {
    let mut costs = day.costs.value.iter().enumerate();
    let (preference, cost) = costs.find(|(_, cost)| !(0..=MOST_COST).contains(*cost))?;
    let reason =
        format!("the cost of preference {preference} is {cost}, and must be from 0 to {MOST_COST}");
    at(&day.costs, reason)
}

fn constraints(day: &Day) -> Option<Found> {
    let lists = [("scheduling", &day.scheduling), ("assignment", &day.assignment)];
    let (word, list) = lists.into_iter().find(|(_, list)| list.len() > MOST_CONSTRAINTS)?;
    let count = list.len();
    let reason =
        format!("there are {count} {word} constraints, and {MOST_CONSTRAINTS} are the most");
    at(&list[MOST_CONSTRAINTS], reason)
}

fn groups(day: &Day) -> Option<Found> {
    if let Some(own) = day.groups.get(MOST_GROUPS) {
        let count = day.groups.len();
        return at(own, format!("there are {count} groups, and {MOST_GROUPS} are the most"));
    }
    let mut members = 0;
    let own = day.groups.iter().find(|group| {
        members += group.value.len();
        members > MOST_MEMBERS
    })?;
    at(own, format!("the groups up to here have more than {MOST_MEMBERS} members"))
}

fn schedule(day: &Day) -> Option<Found> {
    let mut entries = day.entries.value.iter().enumerate();
    let (choice, reason) =
        entries.find_map(|(choice, &own)| entry(day, own).map(|reason| (choice, reason)))?;
    at(&day.entries, format!("{}: {reason}", day.names.full(Choice, choice)))
}

/// Why nothing can be in the slot of an entry.
pub fn entry(day: &Day, entry: u8) -> Option<String> {
    day.sizes.has(Slot, entry.checked_sub(1)?.into()).err()
}

/// Why the values of a plan are refused by 14 to 17.
pub fn values(
    own: &Scheduled,
    given: &GivenPlan,
    model: &Model,
    values: &[i32],
    number: u32,
) -> Option<Found> {
    if let GivenPlan::Seats(seats) = given
        && let Some(seat) = seats.iter().find(|seat| !model.has_edge(seat.value))
    {
        return at(seat, no_edge(own, seat.value));
    }
    let reason = match number {
        14 => out_of_bounds(own, model, values),
        15 => blocked(own, model, values),
        16 => unequal(own, model, values),
        17 => unbalanced(own, model, values),
        _ => None,
    }?;
    let line = match given {
        GivenPlan::Values(own) => Some(own.line),
        GivenPlan::Seats(_) => None,
    };
    Some((line, reason))
}

/// Why the model has no edge for a seat.
fn no_edge(own: &Scheduled, seat: Seat) -> String {
    let Seat { chooser, slot, choice } = seat;
    let (who, what, here) =
        (own.full(Chooser, chooser), own.full(Choice, choice), own.full(Slot, slot));
    let preference = own.day.rows[chooser].value[choice];
    match own.slot_of(choice) {
        None => format!("{what} has no slot"),
        Some(other) if other != slot => {
            format!("{what} is not in {here}: it is in {}", own.full(Slot, other))
        }
        _ if preference > own.day.limit => {
            let limit = own.day.limit;
            format!("the preference of {who} for {what} is {preference}, above the limit {limit}")
        }
        _ => format!("a constraint keeps {who} out of {what}"),
    }
}

/// An edge as a planner sees it.
fn edge_words(own: &Scheduled, edge: &Edge) -> String {
    match edge.meaning {
        Meaning::Seat(Seat { chooser, slot, choice }) => {
            let (who, what) = (own.full(Chooser, chooser), own.full(Choice, choice));
            format!("the seat of {who} in {what}, {}", own.full(Slot, slot))
        }
        Meaning::BeyondMin { choice, .. } => {
            format!("the seats beyond the min of {}", own.full(Choice, choice))
        }
    }
}

fn out_of_bounds(own: &Scheduled, model: &Model, values: &[i32]) -> Option<String> {
    let is_outside = |edge: &Edge, value: i32| value < 0 || i64::from(value) > edge.max.into();
    let mut edges = model.edges.iter().zip(values).enumerate();
    let (place, (edge, &value)) = edges.find(|(_, (edge, value))| is_outside(edge, **value))?;
    match edge.meaning {
        Meaning::BeyondMin { choice, .. } => {
            let (min, max) = (own.day.input.mins[choice], own.day.input.maxs[choice]);
            let seats = i64::from(value) + i64::from(min);
            let what = own.full(Choice, choice);
            Some(format!("{what} would seat {seats}, and takes {min} to {max}"))
        }
        Meaning::Seat(_) => {
            let words = edge_words(own, edge);
            Some(format!("edge {place}, {words}, has the value {value}, and may have 0 or 1"))
        }
    }
}

fn blocked(own: &Scheduled, model: &Model, values: &[i32]) -> Option<String> {
    let mut blocked = model.blocked.iter().map(|&place| usize::from(place));
    let place = blocked.find(|&place| values[place] != 0)?;
    let words = edge_words(own, &model.edges[place]);
    Some(format!("{words} is blocked: what it is tied to cannot be had"))
}

fn unequal(own: &Scheduled, model: &Model, values: &[i32]) -> Option<String> {
    let pairs = model.groups.iter().flat_map(|group| group.windows(2));
    let mut pairs = pairs.map(|pair| [usize::from(pair[0]), usize::from(pair[1])]);
    let [left, right] = pairs.find(|[left, right]| values[*left] != values[*right])?;
    let [left_words, right_words] = [left, right].map(|place| edge_words(own, &model.edges[place]));
    let (left, right) = (values[left], values[right]);
    Some(format!("{left_words} ({left}) is tied to {right_words} ({right}), and they differ"))
}

/// The first node whose outflow less its inflow is not its supply.
fn unbalanced(own: &Scheduled, model: &Model, values: &[i32]) -> Option<String> {
    let mut flow = vec![0_i64; model.supplies.len()];
    for (edge, &value) in model.edges.iter().zip(values) {
        flow[usize::from(edge.from)] += i64::from(value);
        flow[usize::from(edge.to)] -= i64::from(value);
    }
    let is_uneven = |node: &usize| flow[*node] != model.supplies[*node].into();
    let node = (0..flow.len()).find(is_uneven)?;
    Some(match own.day.sizes.node(node) {
        Node::Chooser { chooser, slot } => {
            let (who, here) = (own.full(Chooser, chooser), own.full(Slot, slot));
            format!("{who} has {} seats in {here}, and needs one", flow[node])
        }
        Node::Choice(choice) => {
            let what = own.full(Choice, choice);
            format!("the seats in {what} are not its min and what goes on beyond it")
        }
        Node::Slot(slot) => {
            format!("the choices of {} do not seat every chooser", own.full(Slot, slot))
        }
    })
}
