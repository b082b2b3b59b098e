//! The exit codes: 0 done, 1 wrong, 2 refused, 3 not feasible or without a score.
mod common;

use common::{by_values, command, line_of, seat, with, without_plan};
use std::fs::File;
use std::path::Path;
use std::process::Stdio;

/// What the samples must end with.
#[test]
fn the_samples_end_in_a_feasible_plan() {
    let folder = Path::new(env!("CARGO_MANIFEST_DIR")).join("../../samples");
    let ends = [
        ("sample.txt", "plan: feasible\nscore: major 1, minor 0.25\n"),
        ("full.txt", "plan: feasible\nscore: major 8, minor 92.60356\n"),
    ];
    for (name, end) in ends {
        let output = command().arg(folder.join(name)).output().expect("the command runs");
        let text = String::from_utf8(output.stdout).expect("text");
        assert_eq!(output.status.code(), Some(0), "{name}");
        assert!(text.ends_with(end) && output.stderr.is_empty(), "{text}");
    }
}

#[test]
fn a_day_without_a_plan_is_done() {
    let ran = seat("no-plan.txt", without_plan(), &[]);
    assert_eq!((ran.code, &*ran.messages), (Some(0), ""));
    assert!(ran.out.ends_with("schedule: feasible\n"), "{}", ran.out);
}

/// The line in the place of another, the number, and the reason that must be told.
const REFUSED: [(&str, &str, u32, &str); 16] = [
    ("slots", "slots 9", 1, "there are 9 slots, and a day has 8 at most"),
    ("choice 0", "choice 0 min 2 max 1", 3, "choice 0 has min 2 above max 1"),
    ("choice 0", "choice 0 min 1 max 1001", 3, "choice 0 has max 1001, and 1000 is the most"),
    (
        "preferences 0",
        "preferences 0 : 0 3 0",
        4,
        "preference of chooser 0 for choice 1 is 3, above max_preference 2",
    ),
    ("levels", "levels 0 1 1", 5, "the levels do not ascend: 1 stands before 1"),
    ("levels", "levels 0 1 3", 5, "level 3 is above max_preference 2"),
    ("costs", "costs 1 8 -27", 6, "the cost of preference 2 is -27"),
    ("schedule", "schedule 0 0 2", 11, "choice 2: there is no slot 2: the day has slots 0 to 1"),
    ("move 0 1", "move 0 2", 11, "there is no slot 2: the day has slots 0 to 1"),
    ("seat 0 0", "seat 0 0 2", 17, "choice 2 is not in slot 0: it is in slot 1"),
    ("seat 1 0", "seat 1 0 1", 14, "preference of chooser 1 for choice 1 is 2, above the limit 1"),
    ("seat 0 0", "seat 0 0 0", 14, "choice 0 would seat 2, and takes 1 to 1"),
    ("seat 0 1", "", 14, "choice 2 would seat 1, and takes 2 to 2"),
    ("seat 0 0", "", 17, "chooser 0 has 0 seats in slot 0, and needs one"),
    (
        "seat 0 0",
        "seat 0 0 1\nassignment chooser_is_not_in_choice 0 1",
        17,
        "a constraint keeps chooser 0 out of choice 1",
    ),
    (
        "levels",
        "assignment choosers_have_same_choices 0 1",
        15,
        "the seat of chooser 0 in choice 1, slot 0 is blocked",
    ),
];

#[test]
fn a_refusal_is_told_with_its_reason_and_remedy() {
    for (place, (old, new, number, reason)) in REFUSED.into_iter().enumerate() {
        let ran = seat(&format!("refused-{place}.txt"), with(old, new), &[]);
        assert_eq!(ran.code, Some(2), "{new}: {}{}", ran.out, ran.messages);
        for text in [&ran.out, &ran.messages] {
            assert!(text.contains(&format!("refused by {number}: ")), "{new}: {text}");
            assert!(text.contains(reason), "{new}: {text}");
        }
        assert!(ran.out.contains("what to do: ") && !ran.out.contains("score"), "{}", ran.out);
        // A count of seats, and a chooser without one, are no single line's fault.
        let is_of_line =
            number < 14 || new.starts_with("seat 1 0 1") || number == 17 && !new.is_empty();
        assert_eq!(ran.line().is_some(), is_of_line, "{new}: {}", ran.messages);
    }
}

#[test]
fn values_are_refused_in_words() {
    let refused = [
        ("values 1 0 1 1 1 0 3 0", 14, "choice 1 would seat 3, and takes 0 to 2"),
        ("values 2 0 1 1 1 0 1 0", 14, "edge 0, the seat of chooser 0 in choice 1, slot 0, has"),
        ("values 0 0 1 1 1 0 1 0", 17, "chooser 0 has 0 seats in slot 0, and needs one"),
        ("values 1 1 1 1 1 0 1 0", 17, "chooser 0 has 2 seats in slot 0, and needs one"),
        ("values 1 0 1 1 1 0 0 0", 17, "the seats in choice 1 are not its min"),
    ];
    for (values, number, reason) in refused {
        let ran = seat("values.txt", by_values(values), &[]);
        assert_eq!(ran.code, Some(2), "{values}: {}", ran.messages);
        assert!(
            ran.messages.contains(&format!("refused by {number}: {reason}")),
            "{}",
            ran.messages
        );
        assert_eq!(ran.line(), Some(by_values(values).lines().count()));
    }
    let tie = "assignment choosers_have_same_choices 0 1";
    let file = with("levels", tie).replace("limit 1", "limit 2").replace("max 1\n", "max 2\n");
    let ran = seat("tie.txt", file, &[]);
    assert!(ran.messages.contains("refused by 16: "), "{}", ran.messages);
    assert!(ran.messages.contains("is tied to the seat of chooser 1"), "{}", ran.messages);
}

#[test]
fn too_many_entries_are_refused_with_their_line() {
    let many = |line: &str, count: usize| format!("levels 0 1 2\n{}", line.repeat(count));
    let lines = [
        (many("scheduling choice_is_in_slot 0 0\n", 33), 7, 33),
        (many("assignment chooser_is_in_choice 0 0\n", 4_000), 7, 33),
        (many("group\n", 17), 10, 17),
        (many("group 0 1 2\n", 11), 10, 11),
    ];
    for (place, (new, number, blamed)) in lines.into_iter().enumerate() {
        let ran = seat(&format!("many-{place}.txt"), with("levels", &new), &[]);
        assert!(ran.messages.contains(&format!("refused by {number}: ")), "{}", ran.messages);
        assert_eq!(ran.line(), Some(line_of("levels") + blamed), "{}", ran.messages);
    }
    let rows = (0..65).map(|chooser| format!("preferences {chooser} : 0 0 0\n"));
    let rows = rows.collect::<String>();
    let file = with("choosers", "choosers 65").replace("preferences 0 : 0 1 0\n", "");
    let ran = seat("choosers.txt", file.replace("preferences 1 : 0 2 1\n", &rows), &[]);
    assert!(ran.messages.contains("refused by 1: there are 65 choosers"), "{}", ran.messages);
    assert_eq!(ran.line(), Some(line_of("choosers")));
}

/// A day on which the same values seat two people the other way round where a
/// move is refused.
const SWAPPED: &str = "\
choosers 2
slots 2
choice 0 min 1 max 1
choice 1 min 1 max 1
choice 2 min 2 max 2
max_preference 0
preferences 0 : 0 0 0
preferences 1 : 0 0 0
powers 1
costs 1
schedule 0 0 1
move 0 1
move 0 0
limit 0
values 1 0 1 0 1 1 0 0 0
";

#[test]
fn a_refused_move_ends_the_run() {
    let right = seat("right.txt", SWAPPED, &[]);
    assert_eq!(right.code, Some(0), "{}", right.messages);
    assert!(right.out.contains("choice 0: 1\n    choice 1: 0\n"), "{}", right.out);
    let ran = seat("mistyped.txt", SWAPPED.replacen("move 0 1", "move 0 9", 1), &[]);
    assert_eq!((ran.code, ran.line()), (Some(2), Some(12)));
    assert!(!ran.out.contains("plan"), "{}", ran.out);
}

#[test]
fn a_run_that_goes_on_warns() {
    let mistyped = SWAPPED.replacen("move 0 1", "move 0 9", 1);
    let ran = seat("going-on.txt", &mistyped, &["--keep-going"]);
    assert_eq!((ran.code, ran.line()), (Some(2), Some(12)));
    let warning = "warning: the move of line 12 was refused: this plan is made without it\n";
    assert!(ran.out.contains(warning), "{}", ran.out);
    assert!(ran.out.contains("choice 0: 0\n    choice 1: 1\n"), "{}", ran.out);
    assert!(ran.out.contains("in the order of these lists: slot 0: 0 1; slot 1: 2"), "{}", ran.out);
    assert!(ran.out.contains("the state is kept\n"), "{}", ran.out);
}

/// Seats are the same plan whatever the order of the lists.
#[test]
fn seats_do_not_go_by_lists() {
    let seats = "seat 0 0 1\nseat 0 1 2\nseat 1 0 0\nseat 1 1 2";
    let seats = SWAPPED.replacen("values 1 0 1 0 1 1 0 0 0", seats, 1);
    let unmoved = seats.replacen("move 0 1\nmove 0 0\n", "", 1);
    for file in [seats, unmoved] {
        let ran = seat("seats.txt", file, &[]);
        assert_eq!(ran.code, Some(0), "{}", ran.messages);
        assert!(ran.out.contains("choice 0: 1\n    choice 1: 0\n"), "{}", ran.out);
    }
}

#[test]
fn what_is_not_feasible_is_3() {
    let lines = [
        ("levels", "scheduling choice_is_in_slot 0 1", "schedule: not feasible\n"),
        ("levels", "assignment choices_have_same_choosers 0 2", "plan: not feasible\nscore: none"),
        ("powers", "powers 0 1 0", "score: none"),
    ];
    for (old, new, said) in lines {
        let ran = seat("three.txt", with(old, new), &[]);
        assert_eq!(ran.code, Some(3), "{new}: {}{}", ran.out, ran.messages);
        assert!(ran.out.contains(said), "{new}: {}", ran.out);
    }
    let ran = seat("three.txt", with("levels", "assignment choices_have_same_choosers 0 2"), &[]);
    assert!(ran.out.contains("warning: this plan is not feasible\nplan, by its seats\n"));
    // A choice that must be there is left out of the schedule.
    let left_out = without_plan().replace("schedule 0 0 1", "schedule 0 - 1");
    assert_eq!(seat("left-out.txt", left_out, &[]).code, Some(3));
}

#[test]
fn a_failed_write_is_1() {
    let path = Path::new(env!("CARGO_MANIFEST_DIR")).join("../../samples/sample.txt");
    let full = File::create("/dev/full").expect("it is there");
    let child = command().arg(&path).stdout(full).stderr(Stdio::piped()).spawn();
    let output = child.expect("the command runs").wait_with_output().expect("its output");
    assert_eq!(output.status.code(), Some(1));
    let text = String::from_utf8(output.stderr).expect("text");
    assert!(text.starts_with("what is printed cannot be written: "), "{text}");
}

#[test]
fn a_closed_pipe_is_quiet() {
    let path = Path::new(env!("CARGO_MANIFEST_DIR")).join("../../samples/full.txt");
    let (reader, writer) = std::io::pipe().expect("a pipe");
    drop(reader);
    let child = command().arg(&path).stdout(writer).stderr(Stdio::piped()).spawn();
    let output = child.expect("the command runs").wait_with_output().expect("its output");
    assert_eq!((output.status.code(), output.stderr.len()), (Some(0), 0));
}

#[test]
fn a_file_that_is_not_there_is_1() {
    let output = command().arg("no such\u{1b}file").output().expect("the command runs");
    assert_eq!(output.status.code(), Some(1));
    let text = String::from_utf8(output.stderr).expect("text");
    assert!(text.starts_with("no such\\u{1b}file: cannot be read: "), "{text}");
}

#[test]
fn a_wrong_command_line_is_1() {
    let lines: [&[&str]; 6] = [
        &[],
        &["a", "b"],
        &["--what", "a"],
        &["--roster"],
        &["--json", "--roster", "1", "a"],
        &["--"],
    ];
    for words in lines {
        let output = command().args(words).output().expect("the command runs");
        let text = String::from_utf8(output.stderr).expect("text");
        assert_eq!((output.status.code(), output.stdout.len()), (Some(1), 0), "{words:?}");
        assert!(text.contains("usage: "), "{text}");
    }
}
