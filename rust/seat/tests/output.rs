//! What is printed: rosters, names, the model, JSON.
mod common;

use common::{SAMPLE, VALUES, by_values, command, seat, seat_input, with, without_plan};

const SAMPLE_TEXT: &str = "\
build
  slot 0: covered 1, list 0 1
  slot 1: covered 2, list 2
move of choice 0 to slot 1
  slot 0: covered 0, list 1
  slot 1: covered 3, list 2 0
move of choice 0 to slot 0
  slot 0: covered 1, list 1 0
  slot 1: covered 2, list 2
search: asks for level 1 first, 2 asks at most
model at limit 1: 8 edges, 0 groups, 0 blocked
schedule: feasible
plan, by its seats
  slot 0
    choice 0: 1
    choice 1: 0
  slot 1
    choice 2: 0 1
plan: feasible
score: major 1, minor 0.25
";

#[test]
fn the_sample_is_printed_whole() {
    let ran = seat("sample.txt", SAMPLE, &[]);
    assert_eq!((&*ran.out, ran.code), (SAMPLE_TEXT, Some(0)));
    let ran = seat_input(SAMPLE.as_bytes(), &[]);
    assert_eq!((&*ran.out, ran.code), (SAMPLE_TEXT, Some(0)));
}

/// The file and what is printed stand in README.md as they are.
#[test]
fn the_readme_shows_the_sample() {
    let readme = include_str!("../../../README.md");
    let is_said = |line: &&str| !line.is_empty() && !line.starts_with('#');
    let indented = |line: &str| format!("    {line}\n");
    let file = SAMPLE.lines().filter(is_said).map(indented).collect::<String>();
    let text = SAMPLE_TEXT.lines().map(indented).collect::<String>();
    assert!(readme.contains(&file) && readme.contains(&text));
}

/// Seats need no order, and give what their values give.
#[test]
fn seats_are_values() {
    let lines = SAMPLE.lines().collect::<Vec<_>>();
    let turned = lines.iter().rev().filter(|line| line.starts_with("seat"));
    let turned = turned.map(|line| format!("{line}\n")).collect::<String>();
    assert_eq!(seat("turned.txt", without_plan() + &turned, &[]).out, SAMPLE_TEXT);
    let ran = seat("by-values.txt", by_values(VALUES), &[]);
    let head = "plan, by values in the order of these lists: slot 0: 1 0; slot 1: 2";
    assert_eq!(ran.out, SAMPLE_TEXT.replace("plan, by its seats", head));
    assert_eq!(ran.code, Some(0));
}

const NAMES: &str = "\
name chooser 0 Åsa   Berg
name chooser 1 Jon \"Jo\" Ek
name choice 2 Keypads, part 1
name slot 1 Afternoon
";

#[test]
fn names_stand_behind_numbers() {
    let ran = seat("names.txt", SAMPLE.to_owned() + NAMES, &[]);
    assert_eq!(ran.code, Some(0), "{}", ran.messages);
    let plan = "  slot 1 (Afternoon)\n    choice 2 (Keypads, part 1): 0 (Åsa Berg), \
                1 (Jon \"Jo\" Ek)\n";
    assert!(ran.out.contains(plan), "{}", ran.out);
    assert!(ran.out.contains("    choice 0: 1 (Jon \"Jo\" Ek)\n"), "{}", ran.out);
}

#[test]
fn one_roster_is_printed_alone() {
    let file = SAMPLE.to_owned() + NAMES;
    let end = "plan: feasible\nscore: major 1, minor 0.25\n";
    let roster =
        "slot 1 (Afternoon), choice 2 (Keypads, part 1): 0 (Åsa Berg), 1 (Jon \"Jo\" Ek)\n";
    for word in ["2", "Keypads, part 1"] {
        let ran = seat("roster.txt", &file, &["--roster", word]);
        assert_eq!((ran.out, ran.code), (format!("{roster}{end}"), Some(0)));
    }
    let seats = "chooser 0 (Åsa Berg)\n  slot 0: choice 1\n  \
                 slot 1 (Afternoon): choice 2 (Keypads, part 1)\n";
    for word in ["0", "Åsa Berg"] {
        let ran = seat("chooser.txt", &file, &["--chooser", word]);
        assert_eq!((ran.out, ran.code), (format!("{seats}{end}"), Some(0)));
    }
    for word in ["3", "-1", "Keypads", ""] {
        let ran = seat("roster.txt", &file, &["--roster", word]);
        assert_eq!((&*ran.out, ran.code), ("", Some(1)), "{word}");
        assert!(ran.messages.contains("there is no choice"), "{}", ran.messages);
    }
    let ran = seat("no-plan.txt", without_plan(), &["--roster", "0"]);
    assert!(ran.code == Some(1) && ran.messages.contains("there is no plan in the file"));
}

/// A roster of a plan that is refused, or not feasible, is not read out by mistake.
#[test]
fn a_roster_alone_has_its_verdict() {
    let ran = seat("refused.txt", with("seat 0 0", "seat 0 0 0"), &["--roster", "0"]);
    assert_eq!(ran.code, Some(2));
    assert!(ran.out.starts_with("plan: refused by 14: "), "{}", ran.out);
    let file = with("levels", "assignment choices_have_same_choosers 0 2");
    let ran = seat("bad.txt", file, &["--roster", "0"]);
    assert_eq!(ran.code, Some(3));
    assert!(ran.out.starts_with("warning: this plan is not feasible\nslot 0, choice 0: 1\n"));
}

#[test]
fn an_empty_choice_and_one_without_a_slot_are_told() {
    let file = with("choice 2", "choice 2 min 2 max 2\nchoice 3 min 0 max 1 optional");
    let file = file.replace("preferences 0 : 0 1 0", "preferences 0 : 0 1 0 0");
    let file = file.replace("preferences 1 : 0 2 1", "preferences 1 : 0 2 1 0");
    let ran = seat("three.txt", file.replace("schedule 0 0 1", "schedule 0 0 1 1"), &[]);
    assert!(ran.out.contains("    choice 3: nobody\n"), "{}", ran.out);
    let ran = seat("none.txt", file.replace("schedule 0 0 1", "schedule 0 0 1 -"), &[]);
    assert!(ran.out.contains("  without a slot: choice 3\n"), "{}", ran.out);
    let file = file.replace("schedule 0 0 1", "schedule 0 0 1 -");
    let ran = seat("none.txt", file, &["--roster", "3"]);
    assert!(ran.out.starts_with("choice 3 has no slot\n"), "{}", ran.out);
}

#[test]
fn the_model_is_printed_where_it_is_asked_for() {
    let file = with("levels", "assignment choosers_have_same_choices 0 1");
    let ran = seat("model.txt", file.replace("seat", "# seat"), &["--model"]);
    let lines = [
        "  node 0, chooser 0 in slot 0: supply 1\n",
        "  node 8, slot 1: supply 0\n",
        "  edge 0: from 0 to 5, max 1, cost 8\n",
        "  edge 6: from 5 to 7, max 2, cost 0\n",
        "  group 0: 1 3\n",
        "  group 1: 2 4\n",
        "  blocked: 0\n",
    ];
    for line in lines {
        assert!(ran.out.contains(line), "{line}{}", ran.out);
    }
}

#[test]
fn a_greedy_score_has_no_major() {
    let ran = seat("greedy.txt", SAMPLE.to_owned() + "greedy\n", &[]);
    assert!(ran.out.ends_with("score: major NaN (greedy), minor 0.25\n"), "{}", ran.out);
    assert_eq!(ran.code, Some(0));
}

#[test]
fn a_search_says_how_many_asks_it_makes_at_most() {
    let file = SAMPLE.replace("max_preference 2", "max_preference 4");
    let file = file.replace("powers 0 1 8", "powers 0 1 8 27 64");
    let file = file.replace("costs 1 8 27", "costs 1 8 27 64 125");
    let five = "levels 0 1 2 3 4";
    for (levels, words) in [
        (five.to_owned(), "asks for level 2 first, 3 asks at most"),
        (five.to_owned() + "\nbound 3", "asks for level 3 first, 2 asks at most"),
        (five.to_owned() + "\nbound 5", "asks for level 4 first, 1 ask at most"),
        (five.to_owned() + "\ngreedy", "asks for level 4 first, 1 ask at most"),
        ("levels".to_owned(), "has nothing to ask for"),
    ] {
        let ran = seat("search.txt", file.replace("levels 0 1 2", &levels), &[]);
        assert!(ran.out.contains(&format!("\nsearch: {words}\n")), "{}{}", ran.out, ran.messages);
    }
    for (levels, fields) in [
        (five, "\"first_ask\":2,\"most_asks\":3}"),
        ("levels", "\"first_ask\":null,\"most_asks\":0}"),
    ] {
        let ran = seat("search.txt", file.replace("levels 0 1 2", levels), &["--json"]);
        let json = "{\"step\":\"search\",".to_owned() + fields;
        assert!(ran.out.contains(&json), "{}", ran.out);
    }
}

#[test]
fn help_and_version_are_printed() {
    let help = command().arg("--help").output().expect("the command runs");
    assert_eq!(help.status.code(), Some(0));
    assert!(help.stdout.starts_with(b"usage: "));
    let version = command().arg("--version").output().expect("the command runs");
    assert_eq!(version.stdout, format!("seat {}\n", env!("CARGO_PKG_VERSION")).as_bytes());
}

#[test]
fn json_is_one_object() {
    let score = "{\"step\":\"score\",\"is_finite\":true,\"major\":1,\"minor\":0.25,\
                 \"major_bits\":1065353216,\"minor_bits\":1048576000}";
    let ran = seat("json.txt", SAMPLE.to_owned() + NAMES, &["--json", "--model"]);
    assert!(ran.out.starts_with("{\"exit\":0,\"steps\":[{\"step\":\"build\""), "{}", ran.out);
    assert!(ran.out.contains(score), "{}", ran.out);
    assert!(ran.out.contains("\"name\":\"Jon \\\"Jo\\\" Ek\""), "{}", ran.out);
    assert!(ran.out.contains("{\"from\":0,\"to\":5,\"max\":1,\"cost\":8}"), "{}", ran.out);
    let files = [
        (SAMPLE.to_owned(), 0),
        (with("powers", "powers x"), 1),
        (by_values("values 1"), 1),
        (with("move 0 1", "move 0 9"), 2),
        (SAMPLE.to_owned() + "greedy\n", 0),
        (with("powers", "powers 0 1 0"), 3),
    ];
    for (file, code) in files {
        for options in [&["--json"][..], &["--json", "--model", "--keep-going"]] {
            let ran = seat("json.txt", &file, options);
            assert_eq!(ran.code, Some(code), "{}", ran.messages);
            assert!(ran.out.starts_with(&format!("{{\"exit\":{code},")), "{}", ran.out);
            assert_eq!(value(ran.out.as_bytes()), Some(&b"\n"[..]), "{}", ran.out);
        }
    }
}

/// What follows a JSON value without blanks, by the grammar of RFC 8259.
fn value(text: &[u8]) -> Option<&[u8]> {
    match text.first()? {
        b'{' => items(&text[1..], b'}', |text| value(string(text)?.strip_prefix(b":")?)),
        b'[' => items(&text[1..], b']', value),
        b'"' => string(text),
        b'-' | b'0'..=b'9' => {
            let is_part = |byte: &u8| byte.is_ascii_digit() || b"-+.eE".contains(byte);
            let end = text.iter().position(|byte| !is_part(byte))?;
            str::from_utf8(&text[..end]).ok()?.parse::<f64>().ok()?;
            Some(&text[end..])
        }
        _ => [&b"null"[..], b"true", b"false"].iter().find_map(|word| text.strip_prefix(*word)),
    }
}

type Rest<'a> = Option<&'a [u8]>;

fn items(text: &[u8], end: u8, item: impl Fn(&[u8]) -> Rest<'_>) -> Rest<'_> {
    if text.first() == Some(&end) {
        return Some(&text[1..]);
    }
    let mut rest = item(text)?;
    while let Some(next) = rest.strip_prefix(b",") {
        rest = item(next)?;
    }
    rest.strip_prefix(&[end])
}

fn string(text: &[u8]) -> Option<&[u8]> {
    let mut rest = text.strip_prefix(b"\"")?;
    loop {
        match rest.first()? {
            b'"' => return Some(&rest[1..]),
            b'\\' => rest = rest.get(2..)?,
            0..=31 => return None,
            _ => rest = &rest[1..],
        }
    }
}
