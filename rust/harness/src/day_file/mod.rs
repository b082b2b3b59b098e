//! Day files of what cases use, in the form of docs/FORMAT.md: a failed case is
//! printed as one, so that the command `seat` can be handed it.
mod lines;
mod plans;

use crate::day::Day;
use crate::reading::{self, Handed};
use crate::schedule::Schedule;
use lines::{
    listed, put, put_constraints, put_groups, put_plan, put_preferences, put_sizes, put_tables,
    put_trail,
};
use plans::{can_be_had, schedule_of};
use std::cell::RefCell;

/// What a call used, as far as a day file can say it.
#[derive(Debug, Clone, Default)]
pub struct DayFile {
    /// The call, which a comment names.
    call: String,
    day: Option<Day>,
    /// The schedule of the build, and those of the updates after it.
    trail: Vec<Schedule>,
    limit: Option<u32>,
    values: Option<Vec<i32>>,
    plan: Option<Vec<u8>>,
    is_searched: bool,
    comments: Vec<String>,
    /// Why no day file can say it.
    unsaid: Option<String>,
}

impl DayFile {
    pub fn new(call: impl Into<String>, day: &Day) -> Self {
        Self { call: call.into(), day: Some(day.clone()), ..Self::default() }
    }

    /// What no day file can say.
    pub fn none(reason: &str) -> Self {
        Self { unsaid: Some(reason.to_owned()), ..Self::default() }
    }

    /// A schedule that is built and those that it is updated to, one after the
    /// other. Entries past the day's choices are not looked at.
    pub fn trail(self, trail: &[Schedule]) -> Self {
        Self { trail: trail.to_vec(), ..self }
    }

    pub fn at_limit(self, limit: u32) -> Self {
        Self { limit: Some(limit), ..self }
    }

    fn limit(&self, day: &Day) -> u32 {
        self.limit.unwrap_or(day.max_preference)
    }

    /// A value for each edge of the model at the limit.
    pub fn values(self, values: &[i32]) -> Self {
        Self { values: Some(values.to_vec()), ..self }
    }

    /// A plan. Where the model gives it a file has its seats, and else a comment.
    pub fn plan(self, plan: &[u8]) -> Self {
        Self { plan: Some(plan.to_vec()), ..self }
    }

    /// The levels and the bound are said too.
    pub fn searched(self) -> Self {
        Self { is_searched: true, ..self }
    }

    /// What there is no line for.
    pub fn comment(mut self, comment: impl Into<String>) -> Self {
        self.comments.push(comment.into());
        self
    }

    /// Where this holds no day file can say what the call used.
    pub fn unless(self, is_unsaid: bool, reason: &str) -> Self {
        if is_unsaid && self.unsaid.is_none() {
            return Self { unsaid: Some(reason.to_owned()), ..self };
        }
        self
    }

    /// The same for another call.
    pub fn of_call(self, call: impl Into<String>) -> Self {
        Self { call: call.into(), ..self }
    }

    /// The file, or why there is none.
    pub fn text(&self) -> Result<String, String> {
        if let Some(reason) = &self.unsaid {
            return Err(reason.clone());
        }
        let day = self.day.as_ref().ok_or("the case is of no day")?;
        is_taken(day)?;
        let mut text = format!("# The call that fails: {}\n", self.call);
        for comment in &self.comments {
            put(&mut text, &format!("# {comment}"));
        }
        put_sizes(&mut text, day)?;
        put_preferences(&mut text, day)?;
        if self.is_searched {
            put(&mut text, &listed("levels", &day.levels));
        }
        if self.is_searched && day.bound > 0 {
            put(&mut text, &format!("bound {}", day.bound));
        }
        put_tables(&mut text, day)?;
        put_constraints(&mut text, day)?;
        put_groups(&mut text, day)?;
        let trail = self.whole_trail(day)?;
        put_trail(&mut text, day, &trail);
        put(&mut text, &format!("limit {}", self.limit(day)));
        if let Some(values) = &self.values {
            put(&mut text, &listed("values", values));
        }
        if let Some(plan) = &self.plan {
            put_plan(&mut text, day, plan, can_be_had(day, &trail, self.limit(day), plan));
        }
        if day.greedy {
            put(&mut text, "greedy");
        }
        Ok(text)
    }

    /// The trail, each schedule with an entry for each choice. Without one a plan
    /// tells where its choices are.
    fn whole_trail(&self, day: &Day) -> Result<Vec<Schedule>, String> {
        let mut trail = self.trail.clone();
        if trail.is_empty() {
            trail.push(schedule_of(day, self.plan.as_deref().unwrap_or(&[])));
        }
        for schedule in &mut trail {
            if schedule.len() < day.choices {
                return Err("a schedule has not an entry for each choice".to_owned());
            }
            schedule.truncate(day.choices);
        }
        Ok(trail)
    }
}

/// The command finds some faults of a file by itself, and asks the library nothing.
fn is_taken(day: &Day) -> Result<(), String> {
    let faults = reading::faults(&Handed { day: Some(day), ..Handed::default() });
    let is_member = |&member: &u32| (member as usize) < day.choices;
    if faults.iter().any(|fault| [8, 9].contains(fault)) || !day.group_members.iter().all(is_member)
    {
        return Err("constraints or groups name what the day has not".to_owned());
    }
    Ok(())
}

thread_local! {
    /// What the last call of a case used, and whether that is noted at all.
    static LAST: RefCell<Option<Option<DayFile>>> = const { RefCell::new(None) };
}

/// Notes what the next call uses, if that is wanted.
pub fn note(make: impl FnOnce() -> DayFile) {
    LAST.with_borrow_mut(|last| {
        if let Some(last) = last {
            *last = Some(make());
        }
    });
}

/// What is needed for a note alone, or else nothing.
pub fn if_noted<T: Default>(make: impl FnOnce() -> T) -> T {
    if LAST.with_borrow(Option::is_some) { make() } else { T::default() }
}

/// The result, and what the last call used while this ran.
pub fn noted<T>(run: impl FnOnce() -> T) -> (T, Option<DayFile>) {
    LAST.set(Some(None));
    let result = run();
    (result, LAST.take().flatten())
}
