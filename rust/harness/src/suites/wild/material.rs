//! Sound calls in bytes.
use crate::boundary::setting;
use crate::bridge;
use crate::call::{Call, Name, Numbers};
use crate::damage::{Input, values};
use crate::day::SCORES;
use crate::random::Random;
use crate::reading::{Asked, Buffer, Layout};
use crate::recording::Entry;
use crate::scores::random_float;
use crate::suites::verdict::calls::{COMPLETE, SCHEDULING};
use port::guarded::Element;

/// Sound input, and the bytes of its layouts.
pub struct Material {
    input: Input,
    layouts: Vec<(Layout, Vec<u8>)>,
}

impl Material {
    pub fn new(random: &mut Random, input: Input) -> Self {
        let lent = |layout| (layout, input.lend(random, layout).now().to_vec());
        let layouts = Layout::ALL.map(lent).to_vec();
        Self { input, layouts }
    }

    /// A sound call of an entry that is lent these slices.
    pub fn call(&self, random: &mut Random, taken: (Entry, &[Name], &[Name])) -> Call {
        let (entry, read, written) = taken;
        let mut numbers = self.numbers(random);
        let mut slices = Vec::new();
        for &name in read {
            slices.push((name, self.read(random, name, numbers.limit)));
        }
        slices.extend(written.iter().map(|&name| (name, self.written(random, name))));
        let call = Call { entry, slices, numbers };
        numbers.count = call.length(Name::Scores).unwrap_or(0) / 2;
        Call { numbers, ..call }
    }

    fn numbers(&self, random: &mut Random) -> Numbers {
        let Input { day, asked, result, .. } = &self.input;
        let mut numbers = Numbers {
            limit: random.pick(&[day.max_preference, day.max_preference, 0, 1, u32::MAX]),
            bound: day.bound,
            greedy: setting(random, day.greedy),
            result: *result,
            solution: random.pick(&[COMPLETE, COMPLETE, SCHEDULING, 0, 3]),
            ..Numbers::default()
        };
        for asked in asked {
            match *asked {
                Asked::Chooser(chooser) => numbers.chooser = chooser,
                Asked::Choice(choice) => numbers.choice = choice,
                Asked::Slot(slot) => numbers.slot = slot,
            }
        }
        numbers
    }

    /// A slice that is read.
    fn read(&self, random: &mut Random, name: Name, limit: u32) -> Vec<u8> {
        let Input { day, state, plan, .. } = &self.input;
        match name {
            Name::Levels => u32::bytes(&day.levels),
            Name::Preferences => u32::bytes(&day.preferences),
            Name::Costs => i64::bytes(&day.costs),
            Name::Powers => f32::bytes(&day.powers),
            Name::Values => i32::bytes(&self.values(random, limit)),
            Name::Lists => state.lists.clone(),
            Name::Plan => plan.clone(),
            Name::Scores => {
                let count = 2 * random.below(SCORES + 2);
                f32::bytes(&(0..count).map(|_| random_float(random)).collect::<Vec<_>>())
            }
            _ => {
                let own = self.layouts.iter().find(|(layout, _)| Some(*layout) == name.layout());
                own.expect("what is read else is a layout").1.clone()
            }
        }
    }

    /// A slice that may be written: it holds the pattern of guard zones, save for
    /// slot lists, which are those of the state.
    fn written(&self, random: &mut Random, name: Name) -> Vec<u8> {
        if name == Name::Lists {
            return self.input.state.lists.clone();
        }
        let buffer = name.buffer().expect("what is written is a buffer");
        let length = (buffer.named_length() + random.below(3)) * name.size();
        u8::pattern().iter().copied().cycle().take(length).collect()
    }

    /// Values that the model accepts, with a damage or without, or others.
    fn values(&self, random: &mut Random, limit: u32) -> Vec<i32> {
        let Input { day, state, .. } = &self.input;
        let length = Buffer::EdgeValues.named_length();
        let fill = random.pick(&[0, 0, 0, 1, -1]);
        let mut values = vec![fill; length];
        if random.chance(60) {
            let model = bridge::ask(day, state, |solver| solver.model(limit));
            if let oracle::Outcome::Solved(mut own) = oracle::solve(&model) {
                if random.chance(60) {
                    let damage = &values::DAMAGES[random.below(values::DAMAGES.len())];
                    (damage.apply)(random, &model, &mut own);
                }
                values[..own.len()].copy_from_slice(&own);
            }
        }
        values
    }
}
