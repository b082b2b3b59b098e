//! A day is taken through the library, call by call. The number of every answer
//! is looked at before anything else of it.
use crate::day::{Day, GivenPlan};
use crate::entity::Entity;
use crate::explain;
use crate::model::{Buffers, EDGES, Model};
use crate::refusals::Refusal;
use crate::report::{FirstAsk, Origin, Plan, Report, Roster, Score, SlotList, Step, Stop};
use crate::source::{Fault, Located};
use crate::statements::Move;
use port::{
    CachedAssignment, Lent, ModelTables, ScheduleState, ScoreTables, Solution, VerdictAnswer,
};

/// The named lengths of slot lists, and of plans and rosters.
const LISTS: usize = 256;
const PLAN: usize = 512;

/// A solution with a schedule and a plan.
const COMPLETE: u32 = 2;

/// Takes the day as far as it goes. A refused move ends the run, unless it is to
/// go on.
pub fn run(day: &Day, keeps_going: bool) -> Report {
    let mut steps = Vec::new();
    let stop = run_all(day, keeps_going, &mut steps).err();
    Report { steps, stop }
}

fn run_all(day: &Day, keeps_going: bool, steps: &mut Vec<Step>) -> Result<(), Stop> {
    let mut scheduled = Scheduled::build(day)?;
    steps.push(Step::Built(scheduled.slot_lists()?));
    for own in &day.moves {
        match scheduled.update(own) {
            Ok(step) => steps.push(step),
            Err(refusal) if keeps_going => {
                steps.push(Step::MoveRefused { own: own.value, refusal })
            }
            Err(refusal) => return Err(refusal.into()),
        }
    }
    if let Some(levels) = &day.levels {
        steps.push(Step::Search(scheduled.first_ask(&levels.value)?));
    }
    let model = scheduled.model()?;
    steps.push(Step::Model(model.clone()));
    let is_feasible = scheduled.schedule_is_feasible()?;
    steps.push(Step::Schedule { is_feasible });
    match &day.plan {
        None => Ok(()),
        Some(given) => scheduled.judge(given, &model, steps),
    }
}

impl From<Refusal> for Stop {
    fn from(refusal: Refusal) -> Self {
        Self::Refused(refusal)
    }
}

impl From<Fault> for Stop {
    fn from(fault: Fault) -> Self {
        Self::Wrong(fault)
    }
}

/// The number of an answer must be 0.
fn accepted(call: &str, number: u32) -> Result<(), Refusal> {
    if number == 0 { Ok(()) } else { Err(Refusal::new(call, number)) }
}

/// A day with the state of its present schedule and the state's slot lists.
pub struct Scheduled<'a> {
    pub day: &'a Day,
    pub state: ScheduleState,
    lists: [u8; LISTS],
}

impl<'a> Scheduled<'a> {
    fn build(day: &'a Day) -> Result<Self, Refusal> {
        let mut lists = [0; LISTS];
        let answer = port::build(&day.input, &day.schedule(), &mut lists);
        accepted("build", answer.number)
            .map_err(|refusal| refusal.because(explain::day(day, answer.number)))?;
        Ok(Self { day, state: answer.state, lists })
    }

    /// A refused move leaves the state as it was.
    fn update(&mut self, own: &Located<Move>) -> Result<Step, Refusal> {
        let Located { line, value: Move { choice, entry } } = *own;
        let mut schedule = self.state.schedule;
        schedule.entries[choice] = entry;
        let answer = port::update(&self.day.input, &self.state, &schedule, &mut self.lists);
        accepted(&self.day.move_words(own.value), answer.number).map_err(|refusal| {
            let reason = explain::entry(self.day, entry).unwrap_or(refusal.reason.clone());
            refusal.because(Some((Some(line), reason)))
        })?;
        self.state = answer.state;
        Ok(Step::Moved { line, own: own.value, lists: self.slot_lists()? })
    }

    fn slot_lists(&self) -> Result<Vec<SlotList>, Refusal> {
        (0..self.day.sizes.slots).map(|slot| self.slot_list(slot)).collect()
    }

    fn slot_list(&self, slot: usize) -> Result<SlotList, Refusal> {
        let answer = port::slot_list(&self.day.input, &self.state, &self.lists, slot);
        accepted(&format!("list of slot {slot}"), answer.number)?;
        let choices = self.lists[answer.range()].to_vec();
        Ok(SlotList { slot, covered: self.state.covered[slot], choices })
    }

    /// The slot of a choice.
    pub fn slot_of(&self, choice: usize) -> Option<usize> {
        self.state.schedule.entries[choice].checked_sub(1).map(usize::from)
    }

    fn first_ask(&self, levels: &[u32]) -> Result<FirstAsk, Refusal> {
        let Day { input, bound, is_greedy, .. } = self.day;
        let none = CachedAssignment::default();
        let schedule = &self.state.schedule;
        let answer = port::begin(input, schedule, levels, *bound, u32::from(*is_greedy), &none);
        accepted("search", answer.number)
            .map_err(|refusal| refusal.because(explain::day(self.day, answer.number)))?;
        let level = answer.search.is_asking().then_some(answer.level);
        Ok(FirstAsk { level, most_asks: answer.most_asks })
    }

    fn model(&self) -> Result<Model, Refusal> {
        let mut buffers = Buffers::new();
        let Day { input, limit, sizes, .. } = self.day;
        let answer = port::model(input, &self.state, *limit, self.tables(), buffers.lend());
        accepted("model", answer.number)
            .map_err(|refusal| refusal.because(explain::day(self.day, answer.number)))?;
        Ok(Model::new(*limit, *sizes, &answer, &buffers))
    }

    fn tables(&self) -> ModelTables<'_> {
        ModelTables {
            preferences: (&self.day.preferences).into(),
            costs: (&self.day.costs.value).into(),
            lists: (&self.lists).into(),
        }
    }

    fn schedule_is_feasible(&self) -> Result<bool, Refusal> {
        let answer = port::schedule_is_feasible(&self.day.input, &self.state.schedule);
        verdict("verdict on the schedule", answer)
    }

    /// The plan, where the library accepts its values, with its verdict and score.
    fn judge(&self, given: &GivenPlan, model: &Model, steps: &mut Vec<Step>) -> Result<(), Stop> {
        let (values, origin) = self.values(given, model)?;
        let plan = self.check_values(given, model, &values)?;
        steps.push(Step::Plan(self.plan(&plan, origin)?));
        let answer = port::is_feasible(&self.day.input, &self.state.schedule, &plan);
        steps.push(Step::Verdict { is_feasible: verdict("verdict on the plan", answer)? });
        steps.push(Step::Score(self.evaluate(&plan)?));
        Ok(())
    }

    /// Values must be as many as there are edges.
    fn values(&self, given: &GivenPlan, model: &Model) -> Result<(Vec<i32>, Origin), Stop> {
        match given {
            GivenPlan::Seats(seats) => {
                let seats = seats.iter().map(|seat| seat.value).collect::<Vec<_>>();
                Ok((model.values(&seats, &self.day.input.mins), Origin::Seats))
            }
            GivenPlan::Values(own) if own.value.len() == model.edges.len() => {
                Ok((own.value.clone(), Origin::Values(self.slot_lists()?)))
            }
            GivenPlan::Values(own) => {
                let (found, edges) = (own.value.len(), model.edges.len());
                Err(own.fault(format!("there are {found} values for {edges} edges")).into())
            }
        }
    }

    fn check_values(
        &self,
        given: &GivenPlan,
        model: &Model,
        values: &[i32],
    ) -> Result<[u8; PLAN], Refusal> {
        let (mut buffers, mut plan) = (Buffers::new(), [0; PLAN]);
        let mut lent = values.to_vec();
        lent.resize(EDGES, 0);
        let Day { input, limit, .. } = self.day;
        let (tables, room) = (self.tables(), buffers.lend());
        let answer = port::check_values(input, &self.state, *limit, tables, &lent, room, &mut plan);
        accepted("plan", answer.number).map_err(|refusal| {
            let found = explain::values(self, given, model, values, answer.number);
            match given {
                GivenPlan::Seats(_) => refusal.because(found).of_seats(),
                GivenPlan::Values(_) => refusal.because(found),
            }
        })?;
        Ok(plan)
    }

    fn plan(&self, plan: &[u8], origin: Origin) -> Result<Plan, Refusal> {
        let choices = 0..self.day.sizes.choices;
        let mut rosters = Vec::new();
        for slot in 0..self.day.sizes.slots {
            let here = choices.clone().filter(|&choice| self.slot_of(choice) == Some(slot));
            for choice in here {
                rosters.push(Roster { slot, choice, choosers: self.roster(plan, choice)? });
            }
        }
        let rows = (0..self.day.sizes.choosers).map(|chooser| self.row(plan, chooser));
        Ok(Plan {
            origin,
            rosters,
            rows: rows.collect::<Result<_, _>>()?,
            unscheduled: choices.filter(|&choice| self.slot_of(choice).is_none()).collect(),
        })
    }

    fn roster(&self, plan: &[u8], choice: usize) -> Result<Vec<u8>, Refusal> {
        let mut roster = [0; PLAN];
        let answer = port::choosers_ordered(&self.day.input, plan, choice, &mut roster);
        accepted(&format!("roster of choice {choice}"), answer.number)?;
        Ok(roster[..answer.length as usize].to_vec())
    }

    fn row(&self, plan: &[u8], chooser: usize) -> Result<Vec<u32>, Refusal> {
        let choice = |slot| {
            let answer = port::choice_of(&self.day.input, plan, chooser, slot);
            accepted(&format!("choices of chooser {chooser}"), answer.number)?;
            Ok(answer.choice)
        };
        (0..self.day.sizes.slots).map(choice).collect()
    }

    fn evaluate(&self, plan: &[u8]) -> Result<Score, Refusal> {
        let Day { input, preferences, powers, is_greedy, .. } = self.day;
        let (schedule, plan) = (Lent::from(&self.state.schedule), plan.into());
        let solution = Solution { kind: COMPLETE, schedule, plan };
        let tables =
            ScoreTables { preferences: preferences.into(), powers: (&powers.value).into() };
        let answer = port::evaluate(input, solution, u32::from(*is_greedy), tables);
        accepted("score", answer.number)?;
        let [major, minor] = [answer.score.major, answer.score.minor].map(f32::from_bits);
        Ok(Score { major, minor, is_finite: port::is_finite((major, minor)) != 0 })
    }

    /// How a chooser, a choice or a slot is called in messages.
    pub fn full(&self, entity: Entity, number: usize) -> String {
        self.day.names.full(entity, number)
    }
}

fn verdict(call: &str, answer: VerdictAnswer) -> Result<bool, Refusal> {
    accepted(call, answer.number)?;
    Ok(answer.holds != 0)
}
