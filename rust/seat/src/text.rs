//! A report as text.
use crate::day::Day;
use crate::entity::Entity::{self, Choice, Chooser, Slot};
use crate::model::{Edge, Model, Node};
use crate::refusals::Refusal;
use crate::report::{FirstAsk, Origin, Plan, Report, Roster, Score, SlotList, Step, Stop};

/// What is printed of a report.
#[derive(Debug, Clone, Copy, Default)]
pub struct View {
    /// The roster of this choice alone.
    pub roster: Option<usize>,
    /// The seats of this chooser alone.
    pub chooser: Option<usize>,
    pub has_model: bool,
}

impl View {
    fn is_whole(self) -> bool {
        self.roster.is_none() && self.chooser.is_none()
    }
}

pub fn text(day: &Day, report: &Report, view: View) -> String {
    let printer = Printer { day, report, view };
    let mut lines = report.steps.iter().flat_map(|step| printer.step(step)).collect::<Vec<_>>();
    if let Some(Stop::Refused(refusal)) = &report.stop {
        lines.extend(refused(refusal));
    }
    lines.into_iter().map(|line| line + "\n").collect()
}

struct Printer<'a> {
    day: &'a Day,
    report: &'a Report,
    view: View,
}

/// A refusal with its number, the line, the reason and the remedy.
fn refused(refusal: &Refusal) -> [String; 2] {
    let Refusal { call, number, line, reason, remedy } = refusal;
    let place = line.map_or(String::new(), |line| format!(" (line {line})"));
    [format!("{call}{place}: refused by {number}: {reason}"), format!("  what to do: {remedy}")]
}

fn verdict(is_feasible: bool) -> &'static str {
    if is_feasible { "feasible" } else { "not feasible" }
}

impl Printer<'_> {
    fn step(&self, step: &Step) -> Vec<String> {
        let is_whole = self.view.is_whole();
        match step {
            Step::MoveRefused { refusal, .. } => {
                let kept = "  the state is kept".to_owned();
                refused(refusal).into_iter().chain([kept]).collect()
            }
            Step::Plan(plan) => self.plan(plan),
            Step::Verdict { is_feasible } => vec![format!("plan: {}", verdict(*is_feasible))],
            Step::Score(score) => vec![format!("score: {}", score_words(*score))],
            _ if !is_whole => Vec::new(),
            Step::Built(lists) => self.with_lists("build".to_owned(), lists),
            Step::Moved { own, lists, .. } => self.with_lists(self.day.move_words(*own), lists),
            Step::Search(ask) => vec![search_words(*ask)],
            Step::Model(model) => self.model(model),
            Step::Schedule { is_feasible } => {
                vec![format!("schedule: {}", verdict(*is_feasible))]
            }
        }
    }

    fn full(&self, entity: Entity, number: usize) -> String {
        self.day.names.full(entity, number)
    }

    fn with_lists(&self, head: String, lists: &[SlotList]) -> Vec<String> {
        let line = |own: &SlotList| {
            let slot = self.full(Slot, own.slot);
            format!("  {slot}: covered {}, list{}", own.covered, spaced(&own.choices))
        };
        [head].into_iter().chain(lists.iter().map(line)).collect()
    }

    fn model(&self, model: &Model) -> Vec<String> {
        let Model { limit, edges, groups, blocked, .. } = model;
        let mut lines = vec![format!(
            "model at limit {limit}: {} edges, {} groups, {} blocked",
            edges.len(),
            groups.len(),
            blocked.len()
        )];
        if self.view.has_model {
            let supplies = model.supplies.iter().enumerate();
            lines.extend(supplies.map(|(node, supply)| {
                format!("  node {node}, {}: supply {supply}", self.node_words(node))
            }));
            lines.extend(edges.iter().enumerate().map(|(place, edge)| edge_words(place, edge)));
            let groups = groups.iter().enumerate();
            lines.extend(groups.map(|(place, group)| format!("  group {place}:{}", spaced(group))));
            lines.push(format!("  blocked:{}", spaced(blocked)));
        }
        lines
    }

    fn node_words(&self, node: usize) -> String {
        match self.day.sizes.node(node) {
            Node::Chooser { chooser, slot } => {
                format!("{} in {}", self.full(Chooser, chooser), self.full(Slot, slot))
            }
            Node::Choice(choice) => self.full(Choice, choice),
            Node::Slot(slot) => self.full(Slot, slot),
        }
    }

    fn plan(&self, plan: &Plan) -> Vec<String> {
        let mut lines = self.warnings();
        if self.view.is_whole() {
            lines.push(match &plan.origin {
                Origin::Seats => "plan, by its seats".to_owned(),
                Origin::Values(lists) => {
                    let lists = lists.iter().map(list_words).collect::<Vec<_>>().join("; ");
                    format!("plan, by values in the order of these lists: {lists}")
                }
            });
            lines.extend(self.rosters(plan));
        }
        if let Some(choice) = self.view.roster {
            lines.push(self.one_roster(plan, choice));
        }
        if let Some(chooser) = self.view.chooser {
            lines.extend(self.seats(plan, chooser));
        }
        lines
    }

    /// Who reads a plan must know first where it is not what was meant.
    fn warnings(&self) -> Vec<String> {
        let warning = |refusal: &Refusal| {
            let line = refusal.line.unwrap_or_default();
            format!("warning: the move of line {line} was refused: this plan is made without it")
        };
        let is_bad = |step: &Step| matches!(step, Step::Verdict { is_feasible: false });
        let bad = self.report.steps.iter().filter(|step| is_bad(step));
        let bad = bad.map(|_| "warning: this plan is not feasible".to_owned());
        self.report.refused_moves().map(warning).chain(bad).collect()
    }

    fn rosters(&self, plan: &Plan) -> Vec<String> {
        let mut lines = Vec::new();
        for slot in 0..self.day.sizes.slots {
            lines.push(format!("  {}", self.full(Slot, slot)));
            let own = plan.rosters.iter().filter(|roster| roster.slot == slot);
            lines.extend(own.map(|roster| format!("    {}", self.roster_words(roster))));
        }
        if !plan.unscheduled.is_empty() {
            let choices = plan.unscheduled.iter().map(|&choice| self.full(Choice, choice));
            lines.push(format!("  without a slot: {}", choices.collect::<Vec<_>>().join(", ")));
        }
        lines
    }

    fn roster_words(&self, roster: &Roster) -> String {
        let choosers = roster.choosers.iter().map(|&chooser| usize::from(chooser));
        let choosers = choosers.map(|chooser| self.day.names.number(Chooser, chooser));
        let parting = if self.day.names.has_any(Chooser) { ", " } else { " " };
        let choosers = choosers.collect::<Vec<_>>().join(parting);
        let choosers = if choosers.is_empty() { "nobody" } else { &choosers };
        format!("{}: {choosers}", self.full(Choice, roster.choice))
    }

    fn one_roster(&self, plan: &Plan, choice: usize) -> String {
        match plan.rosters.iter().find(|roster| roster.choice == choice) {
            Some(roster) => {
                format!("{}, {}", self.full(Slot, roster.slot), self.roster_words(roster))
            }
            None => format!("{} has no slot", self.full(Choice, choice)),
        }
    }

    fn seats(&self, plan: &Plan, chooser: usize) -> Vec<String> {
        let seats = plan.rows[chooser].iter().enumerate();
        let lines = seats.map(|(slot, &choice)| {
            format!("  {}: {}", self.full(Slot, slot), self.full(Choice, choice as usize))
        });
        [self.full(Chooser, chooser)].into_iter().chain(lines).collect()
    }
}

fn search_words(FirstAsk { level, most_asks }: FirstAsk) -> String {
    let asks = if most_asks == 1 { "ask" } else { "asks" };
    match level {
        Some(level) => format!("search: asks for level {level} first, {most_asks} {asks} at most"),
        None => "search: has nothing to ask for".to_owned(),
    }
}

fn list_words(own: &SlotList) -> String {
    format!("slot {}:{}", own.slot, spaced(&own.choices))
}

fn edge_words(place: usize, edge: &Edge) -> String {
    let Edge { from, to, max, cost, .. } = edge;
    format!("  edge {place}: from {from} to {to}, max {max}, cost {cost}")
}

fn score_words(score: Score) -> String {
    match score {
        Score { is_finite: false, .. } => {
            "none: the plan is not feasible, or its minor is not finite".to_owned()
        }
        Score { major, minor, .. } if major.is_nan() => {
            format!("major NaN (greedy), minor {minor}")
        }
        Score { major, minor, .. } => format!("major {major}, minor {minor}"),
    }
}

/// Numbers, each after a blank.
fn spaced<T: ToString>(numbers: &[T]) -> String {
    numbers.iter().map(|number| format!(" {}", number.to_string())).collect()
}
