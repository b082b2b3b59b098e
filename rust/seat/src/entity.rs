//! What a day has a number of, and the names that a file gives them.
use crate::source::{Fault, Located, shown};
use std::collections::BTreeMap;

/// What a day numbers from 0 on.
#[derive(Debug, Clone, Copy, PartialEq, Eq, PartialOrd, Ord)]
pub enum Entity {
    Chooser,
    Choice,
    Slot,
}

impl Entity {
    pub const ALL: [Self; 3] = [Self::Chooser, Self::Choice, Self::Slot];

    pub fn word(self) -> &'static str {
        match self {
            Self::Chooser => "chooser",
            Self::Choice => "choice",
            Self::Slot => "slot",
        }
    }
}

/// How many of each a day has.
#[derive(Debug, Clone, Copy)]
pub struct Sizes {
    pub choosers: usize,
    pub choices: usize,
    pub slots: usize,
}

impl Sizes {
    pub fn of(self, entity: Entity) -> usize {
        match entity {
            Entity::Chooser => self.choosers,
            Entity::Choice => self.choices,
            Entity::Slot => self.slots,
        }
    }

    /// The number must be one of the day's.
    pub fn has(self, entity: Entity, number: usize) -> Result<(), String> {
        let (word, count) = (entity.word(), self.of(entity));
        match count {
            _ if number < count => Ok(()),
            0 => Err(format!("there is no {word} {number}: the day has none")),
            _ => {
                Err(format!("there is no {word} {number}: the day has {word}s 0 to {}", count - 1))
            }
        }
    }
}

/// A name of a chooser, a choice or a slot.
#[derive(Debug)]
pub struct Naming {
    pub entity: Entity,
    pub number: usize,
    pub name: String,
}

/// The names of a day, for what is printed.
#[derive(Debug, Default)]
pub struct Names {
    names: BTreeMap<(Entity, usize), Located<String>>,
}

/// The longest name, in characters.
const MOST_LETTERS: usize = 60;

impl Names {
    /// The names that a file gives, each once and of something that the day has.
    pub fn new(namings: &[Located<Naming>], sizes: Sizes) -> Result<Self, Fault> {
        let mut own = Self::default();
        for naming in namings {
            let Naming { entity, number, name } = &naming.value;
            own.may_add(*entity, *number, name, sizes).map_err(|reason| naming.fault(reason))?;
            let name = Located { line: naming.line, value: name.clone() };
            own.names.insert((*entity, *number), name);
        }
        Ok(own)
    }

    fn may_add(
        &self,
        entity: Entity,
        number: usize,
        name: &str,
        sizes: Sizes,
    ) -> Result<(), String> {
        sizes.has(entity, number)?;
        let word = entity.word();
        if name.chars().count() > MOST_LETTERS {
            return Err(format!("a name has {MOST_LETTERS} characters at most"));
        }
        if name.bytes().all(|byte| byte.is_ascii_digit()) {
            return Err(format!("the name '{}' could be taken for a number", shown(name)));
        }
        if let Some(Located { line, .. }) = self.names.get(&(entity, number)) {
            return Err(format!("line {line} names {word} {number} already"));
        }
        match self.find(entity, name) {
            Some(other) => Err(format!("{word} {other} has the name '{}' already", shown(name))),
            None => Ok(()),
        }
    }

    pub fn get(&self, entity: Entity, number: usize) -> Option<&str> {
        self.names.get(&(entity, number)).map(|name| name.value.as_str())
    }

    /// The number of what has this name.
    pub fn find(&self, entity: Entity, name: &str) -> Option<usize> {
        let own = self.names.iter().filter(|((kind, _), _)| *kind == entity);
        own.filter(|(_, own)| own.value == name).map(|((_, number), _)| *number).next()
    }

    pub fn has_any(&self, entity: Entity) -> bool {
        self.names.keys().any(|(kind, _)| *kind == entity)
    }

    /// The number, with the name behind it where there is one.
    pub fn number(&self, entity: Entity, number: usize) -> String {
        match self.get(entity, number) {
            Some(name) => format!("{number} ({name})"),
            None => number.to_string(),
        }
    }

    /// As `choice 0` or `choice 0 (Basics)`.
    pub fn full(&self, entity: Entity, number: usize) -> String {
        format!("{} {}", entity.word(), self.number(entity, number))
    }
}
