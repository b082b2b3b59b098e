//! The port on its way through a chain of schedules: its state and slot lists,
//! compared after each call in all that they hold.
use crate::answers;
use crate::boundary;
use crate::day::{CHOICES, Day};
use crate::day_file::{self, DayFile};
use crate::lists::{carry, fronts};
use crate::random::Random;
use crate::recording::{Entry, Note, note};
use crate::run::{Outcome, same, wanted};
use crate::schedule::Schedule;
use crate::state::{LISTS, State};
use port::guarded::Guarded;
use port::{AsBytes, ScheduleState, StateAnswer};

pub struct Walk<'a> {
    pub day: &'a Day,
    /// The schedule that the walk stands at, for the day's choices.
    pub schedule: Schedule,
    /// The schedules since the last build, that one included.
    pub trail: Vec<Schedule>,
    /// As the port gave it.
    pub state: ScheduleState,
    /// As the port left it.
    pub lists: Guarded<u8>,
    /// What must stand in the lists by the model.
    pub bytes: Vec<u8>,
}

impl<'a> Walk<'a> {
    /// A walk before its first build.
    pub fn new(random: &mut Random, day: &'a Day) -> Self {
        let length = LISTS + random.pick(&[0, 0, 1, 32, 300]);
        let lists = random_buffer(random, length);
        let bytes = lists.now().to_vec();
        let state = answers::refused_state(0).state;
        let schedule = vec![None; day.choices];
        Self { day, schedule, trail: Vec::new(), state, lists, bytes }
    }

    /// A fresh build, whatever stands in the buffer.
    pub fn build(
        &mut self,
        random: &mut Random,
        schedule: &Schedule,
        rust: &oracle::State,
    ) -> Outcome {
        self.schedule.fill(None);
        self.trail = vec![rust.schedule.clone()];
        day_file::note(|| self.file("build"));
        let before = self.bytes.clone();
        carry(&mut self.bytes, &self.schedule, &rust.schedule);
        let day = boundary::day(random, self.day);
        let schedule = boundary::schedule(random, self.day, schedule);
        note(|| {
            let note = Note::new(Entry::Build, 0).day(self.day, day.bytes());
            let note = note.table(schedule.bytes()).slice(&before, &self.bytes);
            note.put(&answers::state(self.day, rust))
        });
        let answer = port::build(&day, &schedule, self.lists.lend());
        self.takes("build", answer, rust, &before)
    }

    pub fn update(
        &mut self,
        random: &mut Random,
        schedule: &Schedule,
        rust: &oracle::State,
    ) -> Outcome {
        self.trail.push(rust.schedule.clone());
        day_file::note(|| self.file("update"));
        let before = self.bytes.clone();
        carry(&mut self.bytes, &self.schedule, &rust.schedule);
        let day = boundary::day(random, self.day);
        let state = self.handed_on(random);
        let schedule = boundary::schedule(random, self.day, schedule);
        note(|| {
            let note = Note::new(Entry::Update, 0).day(self.day, day.bytes());
            let note = note.table(state.bytes()).table(schedule.bytes());
            note.slice(&before, &self.bytes).put(&answers::state(self.day, rust))
        });
        let answer = port::update(&day, &state, &schedule, self.lists.lend());
        self.takes("update", answer, rust, &before)
    }

    /// Asks for the list of each slot.
    pub fn ask(&mut self, random: &mut Random, rust: &oracle::State) -> Outcome {
        let day = boundary::day(random, self.day);
        let state = self.handed_on(random);
        for (slot, list) in rust.lists.iter().enumerate() {
            let wanted_answer = answers::slot_list(slot, list.len());
            note(|| {
                let note = Note::new(Entry::SlotList, 0).day(self.day, day.bytes());
                note.table(state.bytes()).table(&self.bytes).put(&slot).put(&wanted_answer)
            });
            day_file::note(|| self.file(&format!("slot_list of slot {slot}")));
            let answer = port::slot_list(&day, &state, self.lists.lend(), slot);
            let input =
                || format!("slot_list {slot} {:?} {:?} {:?}", self.day, self.state, self.bytes);
            same(answer, wanted_answer, input)?;
            let part = &self.lists.now()[answer.range()];
            let part = part.iter().map(|&choice| choice.into()).collect::<Vec<usize>>();
            same(&part, list, input)?;
            wanted(self.lists.differs_from(&self.bytes), None, input)?;
        }
        Ok(())
    }

    /// The way to where the walk stands, for a call.
    pub fn file(&self, call: &str) -> DayFile {
        DayFile::new(call, self.day).trail(&self.trail)
    }

    /// The state that the walk stands at, in plain data.
    pub fn plain_state(&self) -> State {
        let mut schedule = self.schedule.clone();
        schedule.resize(CHOICES, None);
        State {
            schedule,
            covered: self.state.covered.to_vec(),
            blocks: self.state.blocks.iter().map(|&block| block != 0).collect(),
            lists: self.bytes.clone(),
        }
    }

    /// The state as it was given, or with anything past the day's sizes.
    pub fn handed_on(&self, random: &mut Random) -> ScheduleState {
        if random.mostly(50) {
            self.state
        } else {
            boundary::with_rest(random, self.day, self.state)
        }
    }

    /// Compares all that a call gave and left, and goes on from there.
    fn takes(
        &mut self,
        call: &str,
        answer: StateAnswer,
        rust: &oracle::State,
        before: &[u8],
    ) -> Outcome {
        let slots = self.day.slots;
        let input = || {
            let (old, new) = (&self.schedule, &rust.schedule);
            format!("{call} {:?} from {old:?} to {new:?} with {before:?}", self.day)
        };
        same(answer, answers::state(self.day, rust), input)?;
        wanted(&fronts(&self.bytes, &rust.schedule, slots), &rust.lists, input)?;
        let found = (self.lists.differs_from(&self.bytes), self.lists.now());
        wanted(found, (None, &self.bytes[..]), input)?;
        self.schedule.clone_from(&rust.schedule);
        self.state = answer.state;
        Ok(())
    }
}

/// A buffer of the guards' pattern, of bytes that could be choices, or of any.
fn random_buffer(random: &mut Random, length: usize) -> Guarded<u8> {
    let most = random.pick(&[0, 33, 256]);
    if most == 0 {
        return Guarded::patterned(length);
    }
    let bytes = (0..length).map(|_| random.below(most) as u8).collect::<Vec<_>>();
    Guarded::holding(&bytes)
}
