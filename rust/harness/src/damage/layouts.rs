//! Other lengths of what is lent as bytes of one layout.
use super::{Damage, Input};
use crate::random::Random;
use crate::reading::Layout;

pub const SCHEDULES: &[Damage] =
    &[Damage { name: "a schedule of another length", number: 2, apply: schedule }];

pub const STATES: &[Damage] =
    &[Damage { name: "a state of another length", number: 2, apply: state }];

/// Of a search and of what it remembers.
pub const SEARCHES: &[Damage] = &[
    Damage { name: "a search of another length", number: 2, apply: search },
    Damage { name: "a memory of another length", number: 2, apply: memory },
];

/// 2 comes before all other numbers.
pub(super) fn day(random: &mut Random, input: &mut Input) -> Option<()> {
    resize(random, input, Layout::Day)
}

fn schedule(random: &mut Random, input: &mut Input) -> Option<()> {
    resize(random, input, Layout::Schedule)
}

fn state(random: &mut Random, input: &mut Input) -> Option<()> {
    resize(random, input, Layout::State)
}

fn search(random: &mut Random, input: &mut Input) -> Option<()> {
    resize(random, input, Layout::Search)
}

fn memory(random: &mut Random, input: &mut Input) -> Option<()> {
    resize(random, input, Layout::Memory)
}

/// A length around the named one, twice as long, or next to nothing.
fn resize(random: &mut Random, input: &mut Input, layout: Layout) -> Option<()> {
    let named = layout.named_length();
    let length = random.pick(&[named - 2, named - 1, named + 1, named + 2, 2 * named, 1, 0]);
    let own = input.layouts.iter_mut().find(|(own, _)| *own == layout)?;
    own.1 = length;
    Some(())
}
