//! A report as one JSON object (RFC 8259).
use crate::day::Day;
use crate::entity::Entity::{self, Choice, Chooser, Slot};
use crate::model::{Edge, Model};
use crate::refusals::Refusal;
use crate::report::{FirstAsk, Origin, Plan, Report, Roster, Score, SlotList, Step, Stop, WRONG};
use crate::source::Fault;
use crate::statements::Move;

enum Json {
    Null,
    Bool(bool),
    /// Digits as they are written.
    Number(String),
    Text(String),
    List(Vec<Json>),
    Object(Vec<(&'static str, Json)>),
}

use Json::{Bool, List, Null, Object};

/// What was done with a day.
pub fn of_report(day: &Day, report: &Report, has_model: bool) -> String {
    let steps = report.steps.iter().map(|step| of_step(day, report, step, has_model));
    let (refused, fault) = match &report.stop {
        Some(Stop::Refused(refusal)) => (of_refusal(refusal), Null),
        Some(Stop::Wrong(fault)) => (Null, of_fault(fault)),
        None => (Null, Null),
    };
    line(Object(vec![
        ("exit", number(report.exit_code())),
        ("steps", List(steps.collect())),
        ("refused", refused),
        ("fault", fault),
    ]))
}

/// A file that is wrong before anything was done.
pub fn of_wrong_file(fault: &Fault) -> String {
    let steps = ("steps", List(Vec::new()));
    line(Object(vec![
        ("exit", number(WRONG)),
        steps,
        ("refused", Null),
        ("fault", of_fault(fault)),
    ]))
}

fn line(json: Json) -> String {
    let mut text = String::new();
    json.write(&mut text);
    text + "\n"
}

fn of_fault(fault: &Fault) -> Json {
    Object(vec![("line", number(fault.line)), ("reason", text(&fault.reason))])
}

fn of_refusal(refusal: &Refusal) -> Json {
    Object(vec![
        ("call", text(&refusal.call)),
        ("number", number(refusal.number)),
        ("line", refusal.line.map_or(Null, number)),
        ("reason", text(&refusal.reason)),
        ("remedy", text(refusal.remedy)),
    ])
}

fn of_step(day: &Day, report: &Report, step: &Step, has_model: bool) -> Json {
    Object(match step {
        Step::Built(lists) => vec![kind("build"), ("slots", of_lists(day, lists))],
        Step::Moved { line, own, lists } => {
            let mut fields = of_move(*own);
            fields.push(("line", number(*line)));
            fields.push(("slots", of_lists(day, lists)));
            fields
        }
        Step::MoveRefused { own, refusal } => {
            let mut fields = of_move(*own);
            fields.push(("refused", of_refusal(refusal)));
            fields
        }
        Step::Search(FirstAsk { level, most_asks }) => vec![
            kind("search"),
            ("first_ask", level.map_or(Null, number)),
            ("most_asks", number(*most_asks)),
        ],
        Step::Model(model) => of_model(day, model, has_model),
        Step::Schedule { is_feasible } => {
            vec![kind("schedule"), ("is_feasible", Bool(*is_feasible))]
        }
        Step::Plan(plan) => of_plan(day, report, plan),
        Step::Verdict { is_feasible } => {
            vec![kind("verdict"), ("is_feasible", Bool(*is_feasible))]
        }
        Step::Score(score) => of_score(*score),
    })
}

fn kind(name: &'static str) -> (&'static str, Json) {
    ("step", text(name))
}

fn of_move(own: Move) -> Vec<(&'static str, Json)> {
    let slot = own.entry.checked_sub(1).map_or(Null, number);
    vec![kind("move"), ("choice", number(own.choice)), ("slot", slot)]
}

/// The number, and the name where there is one.
fn named(day: &Day, entity: Entity, own: usize) -> Vec<(&'static str, Json)> {
    let name = day.names.get(entity, own).map(|name| ("name", text(name)));
    [(entity.word(), number(own))].into_iter().chain(name).collect()
}

fn of_lists(day: &Day, lists: &[SlotList]) -> Json {
    let list = |own: &SlotList| {
        let mut fields = named(day, Slot, own.slot);
        fields.push(("covered", number(own.covered)));
        fields.push(("list", numbers(&own.choices)));
        Object(fields)
    };
    List(lists.iter().map(list).collect())
}

fn of_model(day: &Day, model: &Model, has_model: bool) -> Vec<(&'static str, Json)> {
    let counts = [model.edges.len(), model.groups.len(), model.blocked.len()].map(number);
    let [edges, groups, blocked] = counts;
    let mut fields = vec![
        kind("model"),
        ("limit", number(model.limit)),
        ("nodes", number(day.sizes.nodes())),
        ("edges", edges),
        ("groups", groups),
        ("blocked", blocked),
    ];
    if has_model {
        let edge = |edge: &Edge| {
            Object(vec![
                ("from", number(edge.from)),
                ("to", number(edge.to)),
                ("max", number(edge.max)),
                ("cost", number(edge.cost)),
            ])
        };
        fields.push(("supplies", numbers(&model.supplies)));
        fields.push(("edge_list", List(model.edges.iter().map(edge).collect())));
        let groups = model.groups.iter().map(|group| numbers(group));
        fields.push(("group_list", List(groups.collect())));
        fields.push(("blocked_list", numbers(&model.blocked)));
    }
    fields
}

fn of_plan(day: &Day, report: &Report, plan: &Plan) -> Vec<(&'static str, Json)> {
    let (origin, lists) = match &plan.origin {
        Origin::Seats => ("seats", Null),
        Origin::Values(lists) => ("values", of_lists(day, lists)),
    };
    let refused = report.refused_moves().filter_map(|refusal| refusal.line).map(number);
    let rosters = plan.rosters.iter().map(|roster| of_roster(day, roster));
    let unscheduled = plan.unscheduled.iter().map(|&choice| Object(named(day, Choice, choice)));
    vec![
        kind("plan"),
        ("by", text(origin)),
        ("lists", lists),
        ("refused_moves", List(refused.collect())),
        ("rosters", List(rosters.collect())),
        ("rows", List(plan.rows.iter().map(|row| numbers(row)).collect())),
        ("without_a_slot", List(unscheduled.collect())),
    ]
}

fn of_roster(day: &Day, roster: &Roster) -> Json {
    let mut fields = named(day, Choice, roster.choice);
    fields.push(("slot", number(roster.slot)));
    let choosers = roster.choosers.iter().map(|&own| Object(named(day, Chooser, own.into())));
    fields.push(("choosers", List(choosers.collect())));
    Object(fields)
}

/// What is not finite has no digits: the bits tell which it is.
fn of_score(score: Score) -> Vec<(&'static str, Json)> {
    let finite = |part: f32| if part.is_finite() { number(part) } else { Null };
    vec![
        kind("score"),
        ("is_finite", Bool(score.is_finite)),
        ("major", finite(score.major)),
        ("minor", finite(score.minor)),
        ("major_bits", number(score.major.to_bits())),
        ("minor_bits", number(score.minor.to_bits())),
    ]
}

fn number<T: ToString>(number: T) -> Json {
    Json::Number(number.to_string())
}

fn numbers<T: ToString>(numbers: &[T]) -> Json {
    List(numbers.iter().map(|one| number(one.to_string())).collect())
}

fn text(text: &str) -> Json {
    Json::Text(text.to_owned())
}

impl Json {
    fn write(&self, out: &mut String) {
        match self {
            Self::Null => out.push_str("null"),
            Self::Bool(holds) => out.push_str(if *holds { "true" } else { "false" }),
            Self::Number(digits) => out.push_str(digits),
            Self::Text(text) => write_text(text, out),
            Self::List(list) => {
                out.push('[');
                for (place, one) in list.iter().enumerate() {
                    out.push_str(if place > 0 { "," } else { "" });
                    one.write(out);
                }
                out.push(']');
            }
            Self::Object(fields) => {
                out.push('{');
                for (place, (name, value)) in fields.iter().enumerate() {
                    out.push_str(if place > 0 { "," } else { "" });
                    write_text(name, out);
                    out.push(':');
                    value.write(out);
                }
                out.push('}');
            }
        }
    }
}

fn write_text(text: &str, out: &mut String) {
    out.push('"');
    for letter in text.chars() {
        match letter {
            '"' => out.push_str("\\\""),
            '\\' => out.push_str("\\\\"),
            letter if letter < ' ' => out.push_str(&format!("\\u{:04x}", u32::from(letter))),
            letter => out.push(letter),
        }
    }
    out.push('"');
}

#[cfg(test)]
mod tests {
    use super::write_text;

    #[test]
    fn text_is_escaped() {
        let mut out = String::new();
        write_text("a\"\\\u{1}Å", &mut out);
        assert_eq!(out, "\"a\\\"\\\\\\u0001Å\"");
    }
}
