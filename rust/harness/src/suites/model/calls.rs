//! The two calls on guarded input, compared in all that they give and leave.
use super::lent::{Lengths, Lent, VALUES};
use crate::answers;
use crate::day::Day;
use crate::day_file::{self, DayFile};
use crate::random::Random;
use crate::recording::{Entry, Note, note};
use crate::run::{Failure, Outcome, wanted};
use oracle::{Plan, Record};
use port::guarded::Guarded;
use port::{ModelAnswer, ModelTables};
use std::fmt;

/// What a call is asked: the model at a limit, or whether it accepts values.
pub struct Asked {
    pub limit: u32,
    pub values: Option<Vec<i32>>,
}

impl fmt::Debug for Asked {
    /// Values show as runs of equal ones, since most are 0.
    fn fmt(&self, formatter: &mut fmt::Formatter) -> fmt::Result {
        write!(formatter, "limit {}", self.limit)?;
        for run in self.values.iter().flat_map(|values| values.chunk_by(|a, b| a == b)) {
            write!(formatter, " {}", run[0])?;
            if run.len() > 1 {
                write!(formatter, "x{}", run.len())?;
            }
        }
        Ok(())
    }
}

pub struct Calls<'a> {
    day: &'a Day,
    lent_day: Guarded<u8>,
    state: Guarded<u8>,
    preferences: Guarded<u32>,
    costs: Guarded<i64>,
    lists: Guarded<u8>,
    pub lengths: Lengths,
    pub lent: Lent,
    /// The way to the state, where it is noted.
    file: DayFile,
    /// The edges of the model that is looked for.
    edges: Option<usize>,
}

impl<'a> Calls<'a> {
    /// The day and the state are lent as these bytes.
    pub fn new(
        day: &'a Day,
        [lent_day, state]: [Guarded<u8>; 2],
        lists: &[u8],
        lengths: Lengths,
    ) -> Self {
        Self {
            day,
            lent_day,
            state,
            preferences: Guarded::holding(&day.preferences),
            costs: Guarded::holding(&day.costs),
            lists: Guarded::holding(lists),
            lengths,
            lent: Lent::new(&lengths),
            file: DayFile::default(),
            edges: None,
        }
    }

    /// The calls, with the way to the state where that is noted.
    pub fn after(self, way: impl FnOnce() -> DayFile) -> Self {
        Self { file: day_file::if_noted(way), ..self }
    }

    /// Values of the length that is lent, with anything past these.
    pub fn with_rest(&self, random: &mut Random, values: &[i32]) -> Vec<i32> {
        let any = random.bits() as i32;
        let rest = random.pick(&[0, 1, -1, any]);
        let mut values = values.to_vec();
        values.resize(self.lengths[VALUES], rest);
        values
    }

    /// The model must be given and left.
    pub fn models(&mut self, limit: u32, model: &Record) -> Outcome {
        self.lent.expect_model(model);
        self.gives(&Asked { limit, values: None }, answers::model(model))
    }

    /// The values must be refused by the number, which is 14 to 17, or with 0 be
    /// accepted and decoded. The model must be left either way. Gives the plan.
    pub fn judges(
        &mut self,
        asked: &Asked,
        model: &Record,
        number: u32,
        decode: impl FnOnce() -> Plan,
    ) -> Result<Option<Plan>, Failure> {
        self.lent.expect_model(model);
        self.edges = Some(model.edges.len());
        if number > 0 {
            self.gives(asked, answers::refused_model(number))?;
            return Ok(None);
        }
        let plan = decode();
        self.lent.expect_plan(&plan);
        self.gives(asked, answers::model(model))?;
        Ok(Some(plan))
    }

    fn noted(&self, asked: &Asked, answer: ModelAnswer) -> Note {
        let entry = if asked.values.is_some() { Entry::CheckValues } else { Entry::Model };
        let note = Note::new(entry, answer.number).day(self.day, self.lent_day.now());
        let note = note.table(self.state.now()).put(&asked.limit);
        let note = note.table(self.preferences.now()).table(self.costs.now());
        let note = note.table(self.lists.now());
        let note = match &asked.values {
            None => self.lent.noted_model(note),
            Some(values) => self.lent.noted_plan(self.lent.noted_model(note.table(values))),
        };
        note.put(&answer)
    }

    /// What a call uses. How many values are looked at is known where the model is.
    fn day_file(&self, asked: &Asked) -> DayFile {
        let file = self.file.clone().at_limit(asked.limit);
        match (&asked.values, self.edges) {
            (None, _) => file.of_call("model"),
            (Some(values), Some(edges)) => file.values(&values[..edges]).of_call("check_values"),
            (Some(_), None) => {
                let comment = "Values beside a refused model are not looked at.";
                file.of_call("check_values").comment(comment)
            }
        }
    }

    /// Makes the call: it must give this answer and leave what is expected.
    pub fn gives(&mut self, asked: &Asked, answer: ModelAnswer) -> Outcome {
        note(|| self.noted(asked, answer));
        day_file::note(|| self.day_file(asked));
        let mut values = asked.values.as_deref().map(Guarded::holding);
        let tables = ModelTables {
            preferences: self.preferences.lend().into(),
            costs: self.costs.lend().into(),
            lists: self.lists.lend().into(),
        };
        let (model, plan) = self.lent.lend();
        let (day, state, limit) = (self.lent_day.lend(), self.state.lend(), asked.limit);
        let found = match &mut values {
            None => port::model(day, state, limit, tables, model),
            Some(values) => {
                port::check_values(day, state, limit, tables, values.lend(), model, plan)
            }
        };
        let input = || {
            let (day, state, lists) = (self.day, self.state.now(), self.lists.now());
            format!("{asked:?} of {day:?} state {state:?} with lists {lists:?}")
        };
        wanted(found, answer, input)?;
        wanted([&self.lent_day, &self.state].map(Guarded::changed), [None; 2], input)?;
        let changes = (self.preferences.changed(), self.costs.changed(), self.lists.changed());
        wanted(changes, (None, None, None), input)?;
        wanted(values.and_then(|values| values.changed()), None, input)?;
        self.lent.is_right(&input)
    }
}
