//! The statements of a file, before it is known whether they fit together.
use crate::constraints::{self, List};
use crate::entity::{Entity, Naming};
use crate::source::{self, Fault, Located, shown};
use crate::words::{Words, entry, number, numbers, one, powers};
use port::Constraint;

#[derive(Debug)]
pub struct Choice {
    pub min: u32,
    pub max: u32,
    pub is_optional: bool,
}

/// A choice that is moved to a slot, as an entry of a schedule.
#[derive(Debug, Clone, Copy)]
pub struct Move {
    pub choice: usize,
    pub entry: u8,
}

/// Who has which choice in which slot.
#[derive(Debug, Clone, Copy, PartialEq, Eq)]
pub struct Seat {
    pub chooser: usize,
    pub slot: usize,
    pub choice: usize,
}

#[derive(Debug, Default)]
pub struct Statements {
    /// The number of the last line.
    pub last: usize,
    pub choosers: Option<Located<usize>>,
    pub slots: Option<Located<usize>>,
    pub choices: Vec<Located<Choice>>,
    pub max_preference: Option<Located<u32>>,
    pub preferences: Vec<Located<Vec<u32>>>,
    pub powers: Option<Located<Vec<f32>>>,
    pub costs: Option<Located<Vec<i64>>>,
    pub scheduling: Vec<Located<Constraint>>,
    pub assignment: Vec<Located<Constraint>>,
    pub groups: Vec<Located<Vec<u32>>>,
    pub levels: Option<Located<Vec<u32>>>,
    pub bound: Option<Located<u32>>,
    pub schedule: Option<Located<Vec<u8>>>,
    pub moves: Vec<Located<Move>>,
    pub limit: Option<Located<u32>>,
    pub values: Option<Located<Vec<i32>>>,
    pub seats: Vec<Located<Seat>>,
    pub names: Vec<Located<Naming>>,
    pub greedy: Option<Located<()>>,
}

impl Statements {
    pub fn read(bytes: &[u8]) -> Result<Self, Fault> {
        let mut own = Self { last: source::count(bytes), ..Self::default() };
        for line in source::lines(bytes)? {
            if let [first, rest @ ..] = &line.value[..] {
                own.take(line.line, first, rest).map_err(|reason| line.fault(reason))?;
            }
        }
        Ok(own)
    }

    fn take(&mut self, line: usize, first: &str, words: Words) -> Result<(), String> {
        match first {
            "choosers" => once(&mut self.choosers, line, one(words)?),
            "slots" => once(&mut self.slots, line, one(words)?),
            "max_preference" => once(&mut self.max_preference, line, one(words)?),
            "powers" => once(&mut self.powers, line, powers(words)?),
            "costs" => once(&mut self.costs, line, numbers(words)?),
            "levels" => once(&mut self.levels, line, numbers(words)?),
            "bound" => once(&mut self.bound, line, one(words)?),
            "limit" => once(&mut self.limit, line, one(words)?),
            "values" => once(&mut self.values, line, numbers(words)?),
            "schedule" => once(&mut self.schedule, line, entries(words)?),
            "greedy" => once(&mut self.greedy, line, nothing(words)?),
            "choice" => {
                let next = self.choices.len();
                push(&mut self.choices, line, next, words, choice)
            }
            "preferences" => {
                let next = self.preferences.len();
                push(&mut self.preferences, line, next, words, row)
            }
            "scheduling" => self.take_constraint(line, List::Scheduling, words),
            "assignment" => self.take_constraint(line, List::Assignment, words),
            "group" => push(&mut self.groups, line, (), words, |(), words| numbers(words)),
            "move" => push(&mut self.moves, line, (), words, |(), words| a_move(words)),
            "seat" => push(&mut self.seats, line, (), words, |(), words| seat(words)),
            "name" => push(&mut self.names, line, (), words, |(), words| naming(words)),
            _ => Err(format!("no statement starts with '{}'", shown(first))),
        }
    }

    fn take_constraint(&mut self, line: usize, list: List, words: Words) -> Result<(), String> {
        let own = match list {
            List::Scheduling => &mut self.scheduling,
            List::Assignment => &mut self.assignment,
        };
        push(own, line, list, words, constraints::read)
    }
}

/// What a file may say often.
fn push<T, A>(
    list: &mut Vec<Located<T>>,
    line: usize,
    about: A,
    words: Words,
    read: impl FnOnce(A, Words) -> Result<T, String>,
) -> Result<(), String> {
    list.push(Located { line, value: read(about, words)? });
    Ok(())
}

/// What a file may say only once.
fn once<T>(place: &mut Option<Located<T>>, line: usize, value: T) -> Result<(), String> {
    match place {
        Some(Located { line, .. }) => Err(format!("line {line} says this already")),
        None => {
            *place = Some(Located { line, value });
            Ok(())
        }
    }
}

fn nothing(words: Words) -> Result<(), String> {
    if words.is_empty() { Ok(()) } else { Err("greedy stands alone".to_owned()) }
}

/// The slots of a schedule.
fn entries(words: Words) -> Result<Vec<u8>, String> {
    words.iter().map(|word| entry(word)).collect()
}

/// `choice 0 min 1 max 2`, with `optional` at its end or not.
fn choice(next: usize, words: Words) -> Result<Choice, String> {
    let (words, is_optional) = match words {
        [front @ .., "optional"] => (front, true),
        _ => (words, false),
    };
    let [own, "min", min, "max", max] = words else {
        return Err("write a choice as 'choice 0 min 1 max 2', optional or not".to_owned());
    };
    in_order("choice", own, next)?;
    Ok(Choice { min: number(min)?, max: number(max)?, is_optional })
}

/// `preferences 0 : 1 2 0`, a number for each choice.
fn row(next: usize, words: Words) -> Result<Vec<u32>, String> {
    let [chooser, ":", row @ ..] = words else {
        return Err("write preferences as 'preferences 0 : 1 2 0'".to_owned());
    };
    in_order("chooser", chooser, next)?;
    numbers(row)
}

/// Choices and rows of preferences stand in their order, none left out.
fn in_order(name: &str, word: &str, next: usize) -> Result<(), String> {
    let own = number::<usize>(word)?;
    if own == next { Ok(()) } else { Err(format!("{name} {next} comes next")) }
}

fn a_move(words: Words) -> Result<Move, String> {
    let [choice, slot] = words else {
        return Err("write a move as 'move CHOICE SLOT' or 'move CHOICE -'".to_owned());
    };
    Ok(Move { choice: number(choice)?, entry: entry(slot)? })
}

fn seat(words: Words) -> Result<Seat, String> {
    let [chooser, slot, choice] = words else {
        return Err("write a seat as 'seat CHOOSER SLOT CHOICE'".to_owned());
    };
    Ok(Seat { chooser: number(chooser)?, slot: number(slot)?, choice: number(choice)? })
}

/// `name choice 0 Keypads for beginners`: blanks within the name count once.
fn naming(words: Words) -> Result<Naming, String> {
    let form = || "write a name as 'name chooser 0 NAME', of a choice or a slot too".to_owned();
    let [entity, own, name @ ..] = words else {
        return Err(form());
    };
    let entity = Entity::ALL.into_iter().find(|known| known.word() == *entity).ok_or_else(form)?;
    if name.is_empty() {
        return Err(form());
    }
    Ok(Naming { entity, number: number(own)?, name: name.join(" ") })
}
