//! Searches of one solver of the Rust and of the port beside each other, one
//! after the other. The Rust remembers inside itself; the port's memory is
//! handed on.
use crate::answers::{self, refused_search};
use crate::boundary;
use crate::day::Day;
use crate::day_file::{self, DayFile};
use crate::plan::{PLAN, of_rows, rows};
use crate::random::Random;
use crate::recording::{Entry, Note, note};
use crate::run::{Failure, Outcome, same, wanted};
use crate::schedule::Schedule;
use crate::search::{FEASIBLE, INFEASIBLE, Memory, Search, ask_of, begun, told};
use oracle::{Problem, SearchRun, Solver, Told};
use port::guarded::Guarded;
use port::{AsBytes, CachedAssignment, InputData, Scheduling, SearchAnswer};
use std::slice;

/// Tells what is searched.
type Trace<'a> = dyn Fn() -> String + 'a;

pub struct Walk<'a> {
    day: &'a Day,
    solver: Solver<'a>,
    levels: Guarded<u32>,
    /// What the port remembers.
    pub cached: Memory,
    /// The port's last search.
    pub port: Search,
    /// How many asks it said that it makes at most.
    pub most_asks: u32,
}

impl<'a> Walk<'a> {
    /// A solver that remembers nothing. A memory that is handed to the port must
    /// not be one that answers.
    pub fn new(day: &'a Day, problem: &'a Problem, cached: Memory) -> Self {
        Self {
            day,
            solver: problem.solver(),
            levels: Guarded::holding(&day.levels),
            cached,
            port: Search::NONE,
            most_asks: 0,
        }
    }

    /// A search begun, and no more. Where the memory answers it is at its end.
    pub fn first(
        &mut self,
        random: &mut Random,
        schedule: &Schedule,
    ) -> Result<SearchAnswer, Failure> {
        let own = self.day;
        let cached = boundary::remembered(random, own, self.cached);
        let trace = || format!("{own:?} {schedule:?} with {cached:?}");
        day_file::note(|| self.day_file(schedule, &[], &cached));
        let day = boundary::day(random, own);
        let lent = boundary::schedule(random, own, schedule);
        self.begin(random, &day, lent, cached, &trace)
    }

    /// A search told what the script says, one entry an ask, compared at each.
    /// Gives the Rust's.
    pub fn search(
        &mut self,
        random: &mut Random,
        schedule: &Schedule,
        script: &[Told],
    ) -> Result<SearchRun, Failure> {
        let own = self.day;
        let cached = boundary::remembered(random, own, self.cached);
        let trace = || format!("{own:?} {schedule:?} {script:?} with {cached:?}");
        day_file::note(|| self.day_file(schedule, script, &cached));
        let rust = self.solver.search_told(&schedule[..own.choices], script);
        // What the Rust did not ask for need not be said.
        let asked = &script[..rust.asks.len()];
        day_file::note(|| self.day_file(schedule, asked, &cached));
        let day = boundary::day(random, own);
        let lent = boundary::schedule(random, own, schedule);
        let mut answer = self.begin(random, &day, lent, cached, &trace)?;
        self.most_asks = answer.most_asks;
        for (place, &entry) in script.iter().enumerate() {
            let ask = ask_of(&answer.search.into(), answer.level);
            same(ask, rust.asks.get(place).cloned(), trace)?;
            if !answer.search.is_asking() {
                break;
            }
            let plan = self.plan(random, entry, answer.level);
            answer = self.tell(random, &day, &answer.search, (entry, &plan), &trace)?;
            same(answer.most_asks, self.most_asks, trace)?;
        }
        same(answer.search.asks as usize, rust.asks.len(), trace)?;
        let is_within = rust.asks.len() <= self.most_asks as usize;
        wanted(is_within, true, || format!("{} asks at most in {}", self.most_asks, trace()))?;
        self.is_over(random, &day, &answer.search, &trace)?;
        self.ends(&answer.search.into(), &rust, &trace)?;
        Ok(rust)
    }

    /// What a search uses. What it is told, and what it remembers, are comments.
    fn day_file(&self, schedule: &Schedule, script: &[Told], cached: &Memory) -> DayFile {
        let file = DayFile::new("a search", self.day).trail(slice::from_ref(schedule)).searched();
        let file = file.comment(format!("It is told: {script:?}"));
        if !cached.there {
            return file;
        }
        let slots = &boundary::slots(&cached.schedule)[..self.day.choices];
        let greedy = cached.greedy;
        file.comment(format!("It remembers a plan of the schedule {slots:?}, greedy {greedy}."))
    }

    fn begin(
        &mut self,
        random: &mut Random,
        day: &InputData,
        schedule: Scheduling,
        cached: Memory,
        trace: &Trace,
    ) -> Result<SearchAnswer, Failure> {
        let greedy = boundary::setting(random, self.day.greedy);
        let memory = CachedAssignment::from(cached);
        let answer = answers::search(begun(self.day, schedule, cached));
        note(|| {
            let note = Note::new(Entry::Begin, 0).known_by(answer.search.is_asking());
            let note = note.day(self.day, day.bytes()).table(schedule.bytes());
            let note = note.table(&self.day.levels).put(&self.day.bound).put(&greedy);
            note.table(memory.bytes()).put(&answer)
        });
        let levels = self.levels.lend();
        let found = port::begin(day, &schedule, levels, self.day.bound, greedy, &memory);
        let input = || format!("begin {}", trace());
        wanted(found, answer, input)?;
        wanted(self.levels.changed(), None, input)?;
        Ok(found)
    }

    /// The plan that the Rust's solver is told with Feasible; otherwise anything
    /// of any length.
    fn plan(&mut self, random: &mut Random, entry: Told, limit: u32) -> Vec<u8> {
        if entry == Told::Feasible {
            return of_rows(random, self.day, &self.solver.plan_told(limit));
        }
        let length = random.pick(&[0, 1, PLAN - 1, PLAN, PLAN + 1]);
        vec![random.bits() as u8; length]
    }

    fn tell(
        &mut self,
        random: &mut Random,
        day: &InputData,
        search: &port::Search,
        (entry, plan): (Told, &[u8]),
        trace: &Trace,
    ) -> Result<SearchAnswer, Failure> {
        let others = [2, 3, 256, 257, u32::MAX];
        let result = match entry {
            Told::Feasible => FEASIBLE,
            Told::Infeasible => INFEASIBLE,
            Told::Late => random.pick(&others),
        };
        let answer = answers::search(told(self.day, &Search::from(*search), entry, plan));
        note(|| {
            let note = Note::new(Entry::Tell, 0).known_by(answer.search.is_asking());
            self.noted(note.about(Some(result.min(2))), day, search, (result, plan)).put(&answer)
        });
        let mut lent = Guarded::holding(plan);
        let found = port::tell(day, search, self.levels.lend(), result, lent.lend());
        let input = || format!("tell {search:?} {result} {}", trace());
        wanted(found, answer, input)?;
        wanted((self.levels.changed(), lent.changed()), (None, None), input)?;
        Ok(found)
    }

    /// What a search is told, put down in a note.
    fn noted(
        &self,
        note: Note,
        day: &InputData,
        search: &port::Search,
        (result, plan): (u32, &[u8]),
    ) -> Note {
        let note = note.day(self.day, day.bytes()).table(search.bytes());
        note.table(&self.day.levels).put(&result).table(plan)
    }

    /// A search that has ended can be told nothing.
    fn is_over(
        &mut self,
        random: &mut Random,
        day: &InputData,
        search: &port::Search,
        trace: &Trace,
    ) -> Outcome {
        let (result, length) = random.pick(&[(FEASIBLE, PLAN), (INFEASIBLE, 0), (2, 0)]);
        // Feasible takes a sound plan, which there is where one was found.
        let result = if search.is_found() { result } else { result.max(INFEASIBLE) };
        let (plan, refused) = (&search.plan[..length], refused_search(18));
        note(|| self.noted(Note::new(Entry::Tell, 18), day, search, (result, plan)).put(&refused));
        let found = port::tell(day, search, self.levels.lend(), result, plan);
        let input = || format!("after the end {search:?} {}", trace());
        wanted((found, self.levels.changed()), (refused, None), input)
    }

    /// The Rust has the same plan and remembers the same.
    fn ends(&mut self, search: &Search, rust: &SearchRun, trace: &Trace) -> Outcome {
        let day = self.day;
        let plan = |plan: &[u8; PLAN]| rows(day, &plan.to_vec());
        same(search.found.then(|| plan(&search.plan)), rust.plan.clone(), trace)?;
        let cached = &search.cached;
        let slots = || boundary::slots(&cached.schedule)[..day.choices].to_vec();
        let is_own = cached.there && cached.greedy == day.greedy;
        let remembered = is_own.then(|| (slots(), plan(&cached.plan)));
        same(remembered, rust.remembered.clone(), trace)?;
        (self.cached, self.port) = (*cached, *search);
        Ok(())
    }
}
