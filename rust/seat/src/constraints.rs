//! Constraints as a file writes them.
use crate::entity::{Entity, Sizes};
use crate::source::shown;
use crate::words::{Words, number};
use port::Constraint;

/// What the right operand of a kind is.
#[derive(Debug, Clone, Copy, PartialEq, Eq)]
enum Target {
    Of(Entity),
    /// A count of choices.
    Limit,
}

/// What a kind has beside its two operands.
#[derive(Debug, Clone, Copy, PartialEq, Eq)]
enum Extra {
    None,
    Offset,
    Operator,
}

struct Kind {
    name: &'static str,
    number: u32,
    left: Entity,
    target: Target,
    extra: Extra,
}

const fn kind(name: &'static str, number: u32, left: Entity, right: Entity) -> Kind {
    Kind { name, number, left, target: Target::Of(right), extra: Extra::None }
}

use Entity::{Choice, Chooser, Slot};

const KINDS: [Kind; 10] = [
    kind("choice_is_in_slot", 1, Choice, Slot),
    kind("choice_is_not_in_slot", 2, Choice, Slot),
    kind("choices_are_in_same_slot", 3, Choice, Choice),
    kind("choices_are_not_in_same_slot", 4, Choice, Choice),
    Kind { extra: Extra::Offset, ..kind("choices_have_offset", 5, Choice, Choice) },
    Kind {
        name: "slot_has_limited_size",
        number: 6,
        left: Slot,
        target: Target::Limit,
        extra: Extra::Operator,
    },
    kind("choices_have_same_choosers", 65_536, Choice, Choice),
    kind("chooser_is_in_choice", 65_537, Chooser, Choice),
    kind("chooser_is_not_in_choice", 65_538, Chooser, Choice),
    kind("choosers_have_same_choices", 65_539, Chooser, Chooser),
];

const OPERATORS: [(&str, i32); 6] =
    [("=", 1), (">", 2), (">=", 3), ("!=", -1), ("<=", -2), ("<", -3)];

/// The two lists of constraints.
#[derive(Debug, Clone, Copy, PartialEq, Eq)]
pub enum List {
    Scheduling,
    Assignment,
}

impl List {
    pub fn word(self) -> &'static str {
        match self {
            Self::Scheduling => "scheduling",
            Self::Assignment => "assignment",
        }
    }

    fn other(self) -> Self {
        match self {
            Self::Scheduling => Self::Assignment,
            Self::Assignment => Self::Scheduling,
        }
    }

    fn has(self, kind: u32) -> bool {
        match self {
            Self::Scheduling => port::is_scheduling_constraint(kind) != 0,
            Self::Assignment => port::is_assignment_constraint(kind) != 0,
        }
    }
}

/// A constraint of a list: its name and its operands.
pub fn read(list: List, words: Words) -> Result<Constraint, String> {
    let [name, operands @ ..] = words else {
        return Err(format!("a constraint belongs here, as '{}'", form(list, example(list))));
    };
    let Some(kind) = KINDS.iter().find(|kind| kind.name == *name) else {
        let names = KINDS.iter().filter(|kind| list.has(kind.number)).map(|kind| kind.name);
        let names = names.collect::<Vec<_>>().join(", ");
        return Err(format!("'{}' is no constraint: there are {names}", shown(name)));
    };
    if !list.has(kind.number) {
        let other = list.other().word();
        return Err(format!("{name} is of the other list: write '{other} {name} ..'"));
    }
    operands_of(kind, operands)?.ok_or_else(|| format!("write it as '{}'", form(list, kind)))
}

/// A kind of each list, for messages.
fn example(list: List) -> &'static Kind {
    KINDS.iter().find(|kind| list.has(kind.number)).unwrap_or(&KINDS[0])
}

/// None where there are not as many operands as the kind has.
fn operands_of(kind: &Kind, operands: Words) -> Result<Option<Constraint>, String> {
    let (left, target, extra) = match (kind.extra, operands) {
        (Extra::None, [left, target]) => (left, target, 0),
        (Extra::Offset, [left, target, offset]) => (left, target, number(offset)?),
        (Extra::Operator, [left, operator, target]) => (left, target, operator_of(operator)?),
        _ => return Ok(None),
    };
    Ok(Some(Constraint {
        kind: kind.number,
        left: number(left)?,
        target_case: kind.target.case(),
        target: number(target)?,
        extra_case: kind.extra.case(),
        extra,
    }))
}

impl Target {
    fn case(self) -> u32 {
        match self {
            Self::Of(Slot) => 1,
            Self::Of(Choice) => 2,
            Self::Of(Chooser) => 3,
            Self::Limit => 4,
        }
    }
}

impl Extra {
    fn case(self) -> u32 {
        match self {
            Self::None => 0,
            Self::Offset => 1,
            Self::Operator => 2,
        }
    }
}

fn operator_of(word: &str) -> Result<i32, String> {
    let known = OPERATORS.iter().find(|(own, _)| *own == word);
    known.map(|(_, number)| *number).ok_or_else(|| {
        let names = OPERATORS.map(|(name, _)| name).join(" ");
        format!("'{}' is no comparison: there are {names}", shown(word))
    })
}

/// How a constraint of the kind is written.
fn form(list: List, kind: &Kind) -> String {
    let capital = |entity: Entity| entity.word().to_uppercase();
    let right = match kind.target {
        Target::Of(entity) => capital(entity),
        Target::Limit => "COUNT".to_owned(),
    };
    let (front, left) = (format!("{} {}", list.word(), kind.name), capital(kind.left));
    match kind.extra {
        Extra::None => format!("{front} {left} {right}"),
        Extra::Offset => format!("{front} {left} {right} OFFSET"),
        Extra::Operator => format!("{front} {left} <= {right}"),
    }
}

/// The operands of a constraint must be the day's.
pub fn fits(constraint: &Constraint, sizes: Sizes) -> Result<(), String> {
    let Some(kind) = KINDS.iter().find(|kind| kind.number == constraint.kind) else {
        return Ok(());
    };
    sizes.has(kind.left, constraint.left as usize)?;
    match kind.target {
        Target::Of(entity) => sizes.has(entity, constraint.target as usize),
        Target::Limit => Ok(()),
    }
}
