//! What must hold of a wild call.
use super::room::{Fields, Room, fields};
use crate::answers;
use crate::call::{Call, Name};
use crate::day_file::{self, DayFile};
use crate::lists::carry;
use crate::random::Random;
use crate::reading::Layout;
use crate::reading::bytes::Plain;
use crate::recording::Entry;
use crate::run::{Failure, Outcome, wanted};
use oracle::Record;
use port::guarded::Element;

/// A call with what the second reading says of it.
struct Judge<'a> {
    call: &'a Call,
    plain: Plain,
    number: u32,
    /// The model that the call must leave, if it does.
    model: Option<Record>,
}

/// What came of a call.
#[derive(Debug, PartialEq, Eq)]
struct Made {
    number: u32,
    answer: Fields,
    /// What it left in the slices that it may write.
    left: Vec<Vec<u8>>,
}

/// Makes the call, and gives its number if all is as it should be.
pub fn judge(random: &mut Random, room: &mut Room, call: &Call) -> Result<u32, Failure> {
    day_file::note(|| DayFile::none("what is lent are bytes of any sort"));
    let made = made(random, room, call)?;
    let number = made.number;
    if let Some(same) = with_ones(call) {
        let again = self::made(random, room, &same)?;
        wanted(made, again, || format!("1 for each flag that is yes in {call:?}"))?;
    }
    Ok(number)
}

fn made(random: &mut Random, room: &mut Room, call: &Call) -> Result<Made, Failure> {
    let plain = Plain::of(call);
    let (number, model) = plain.read();
    let judge = Judge { call, plain, number, model };
    let answer = room.make(random, call);
    judge.is_right(&answer)?;
    judge.leaves(room, &answer)?;
    Ok(Made { number, answer, left: judge.left(room) })
}

/// The call with 1 for each flag that is yes, and for the greedy setting, if that
/// is another one.
fn with_ones(call: &Call) -> Option<Call> {
    let mut same = call.clone();
    let has_setting = matches!(call.entry, Entry::Begin | Entry::Evaluate);
    let mut is_other = has_setting && call.numbers.greedy > 1;
    same.numbers.greedy = call.numbers.greedy.min(1);
    for (name, bytes) in &mut same.slices {
        let layout = name.layout().filter(|layout| layout.named_length() == bytes.len());
        for place in layout.iter().flat_map(|layout| layout.flags()) {
            is_other |= bytes[place] > 1;
            bytes[place] = bytes[place].min(1);
        }
    }
    is_other.then_some(same)
}

impl Judge<'_> {
    fn told(&self, what: &str) -> String {
        format!("{what} in {:?}, read as {:?}", self.call, self.plain)
    }

    /// The number, zeros beside it where it refuses, and flags that are 0 or 1.
    fn is_right(&self, answer: &Fields) -> Outcome {
        let (number, rest) = answer.split_at(4);
        wanted(number, &self.number.to_le_bytes(), || self.told("the number"))?;
        let is_zero = rest.iter().all(|&byte| byte == 0);
        wanted(self.number > 0 && !is_zero, false, || self.told("zeros beside the number"))?;
        if let (Some(model), 0) = (&self.model, self.number) {
            wanted(answer, &fields(&answers::model(model)), || self.told("the model's counts"))?;
        }
        let flags = self.flags().into_iter().filter(|&place| rest[place] > 1);
        wanted(flags.collect(), Vec::new(), || self.told("places of flags above 1"))
    }

    /// The places of flags behind the number of an answer.
    fn flags(&self) -> Vec<usize> {
        match self.call.entry {
            Entry::Build | Entry::Update => Layout::State.flags().collect(),
            // Level and index come first.
            Entry::Begin | Entry::Tell => Layout::Search.flags().map(|place| 8 + place).collect(),
            Entry::IsInChoice
            | Entry::SatisfiesConstraintsScheduling
            | Entry::ScheduleIsFeasible
            | Entry::SatisfiesConstraintsAssignment
            | Entry::IsFeasible => vec![0],
            _ => vec![],
        }
    }

    /// What the call leaves in the slices that it may write.
    fn left(&self, room: &Room) -> Vec<Vec<u8>> {
        let names = self.call.slices.iter().map(|(name, _)| *name);
        let written = names.filter(|name| self.call.writes(*name));
        written.map(|name| room.pages(name).now().to_vec()).collect()
    }

    /// No byte is changed beside a slice, in one that is only read, or behind the
    /// used front of one that is written.
    fn leaves(&self, room: &Room, answer: &Fields) -> Outcome {
        for (name, before) in &self.call.slices {
            let (pages, used) = (room.pages(*name), self.used(*name, answer) * name.size());
            wanted(pages.is_clean(), true, || self.told(&format!("bytes beside {name:?}")))?;
            let mut own = before.clone();
            if *name == Name::Lists && self.number == 0 {
                self.carry(&mut own);
            }
            let is_kept = pages.now()[used..] == own[used..];
            wanted(is_kept, true, || self.told(&format!("{name:?} from byte {used} on")))?;
        }
        Ok(())
    }

    /// The slot lists after a call that is done.
    fn carry(&self, lists: &mut [u8]) {
        let Plain { day: Some(day), state, schedule: Some(schedule), .. } = &self.plain else {
            return;
        };
        let none = vec![None; day.choices];
        let old = state.as_ref().map_or(&none, |state| &state.schedule);
        carry(lists, &old[..day.choices], &schedule[..day.choices]);
    }

    /// How many elements in front of a slice the call writes. Slot lists are
    /// compared whole.
    fn used(&self, name: Name, answer: &Fields) -> usize {
        let seats = self.plain.day.as_ref().map_or(0, |day| day.choosers * day.slots);
        let length = || u32::of_bytes(&answer[4..8]) as usize;
        match (&self.model, name) {
            _ if !self.call.writes(name) => 0,
            (None, Name::Roster) if self.number == 0 => length().min(seats),
            (Some(_), Name::Plan) if self.number == 0 => seats,
            (Some(model), Name::Supplies) => model.supply.len(),
            (Some(model), Name::From | Name::To | Name::Max | Name::Cost) => model.edges.len(),
            (Some(model), Name::Entries) => model.groups.iter().map(Vec::len).sum(),
            (Some(model), Name::Ends) => model.groups.len(),
            (Some(model), Name::Blocked) => model.blocked.len(),
            _ => 0,
        }
    }
}
