//! Files that are wrong: the message names the line and the reason, and nothing
//! is printed.
mod common;

use common::{SAMPLE, by_values, line_of, seat, with};

/// A line of the sample, the line in its place, and the reason that must be told.
const WRONG: [(&str, &str, &str); 64] = [
    ("choosers", "choosers", "one number belongs here"),
    ("choosers", "choosers 2 3", "one number belongs here"),
    ("choosers", "choosers two", "'two' is no whole number"),
    ("choosers", "choosers -1", "'-1' is not from 0 to"),
    ("choosers", "choosers +2", "'+2' has a plus sign: write '2'"),
    ("choosers", "choosers 99999999999999999999999", "is not from 0 to"),
    ("choosers", "choosers 1", "there are 1 choosers: this row is of none"),
    ("choosers", "choosers 3", "of 3 choosers, chooser 2 has no preferences"),
    ("choosers", "slots 2", "line 2 says this already"),
    ("slots", "slots 2.5", "'2.5' is no whole number"),
    ("slots", "Slots 2", "no statement starts with 'Slots'"),
    ("slots", "\u{0}", "the invisible character U+0000"),
    ("slots", "slots\u{a0}2", "the invisible character U+00A0"),
    ("slots", "slots 2 # \u{1b}[31m", "the invisible character U+001B"),
    ("slots", "slots 2\r", "carriage return"),
    ("slots", "slots \u{202e}2", "the invisible character U+202E"),
    ("choice 0", "choice 1 min 1 max 1", "choice 0 comes next"),
    ("choice 1", "choice 0 min 0 max 2", "choice 1 comes next"),
    ("choice 1", "choice 1", "write a choice as"),
    ("choice 1", "choice 1 min 0", "write a choice as"),
    ("choice 1", "choice 1 max 2 min 0", "write a choice as"),
    ("choice 1", "choice 1 min 0 max 2 optional optional", "write a choice as"),
    ("choice 1", "choice 1 min 0 max 4294967296", "'4294967296' is not from 0 to 4294967295"),
    ("choice 2", "", "there are 3 preferences for 2 choices"),
    ("max_preference", "max_preference -2", "'-2' is not from 0"),
    ("max_preference", "max_preference 3", "there are 3 powers for 4 preferences"),
    ("preferences 0", "preferences 0 0 1 0", "write preferences as"),
    ("preferences 0", "preferences 0 : 0 1", "there are 2 preferences for 3 choices"),
    ("preferences 0", "preferences 0 : 0 1 0 0", "there are 4 preferences for 3 choices"),
    ("preferences 1", "preferences 2 : 0 2 1", "chooser 1 comes next"),
    ("preferences 1", "preferences 1 : 0 2 x", "'x' is no whole number"),
    ("preferences 1", "", "of 2 choosers, chooser 1 has no preferences"),
    ("powers", "powers 0 1 8,0", "'8,0' is no power"),
    ("powers", "powers 0 1 NaN", "'NaN' is no power"),
    ("powers", "powers 0 1 inf", "'inf' is no power"),
    ("powers", "powers 0 1 1e39", "'1e39' is too large"),
    ("powers", "powers 0 1", "there are 2 powers for 3 preferences"),
    ("powers", "powers 0 1 8\npowers 0 1 8", "says this already"),
    ("costs", "costs 1 8", "there are 2 costs for 3 preferences"),
    ("costs", "costs 1 8 9223372036854775808", "is not from"),
    ("levels", "scheduling", "a constraint belongs here"),
    ("levels", "scheduling choice_is_in_room 0 1", "'choice_is_in_room' is no constraint"),
    ("levels", "scheduling choice_is_in_slot 0", "scheduling choice_is_in_slot CHOICE SLOT"),
    ("levels", "scheduling choices_have_offset 0 1", "CHOICE CHOICE OFFSET"),
    ("levels", "scheduling slot_has_limited_size 0 about 3", "'about' is no comparison"),
    ("levels", "scheduling slot_has_limited_size 2 <= 3", "there is no slot 2"),
    ("levels", "scheduling choice_is_in_slot 0 2", "there is no slot 2: the day has slots 0 to 1"),
    ("levels", "scheduling chooser_is_in_choice 0 0", "write 'assignment chooser_is_in_choice"),
    ("levels", "assignment choice_is_in_slot 0 0", "write 'scheduling choice_is_in_slot"),
    ("levels", "assignment chooser_is_in_choice 0 1 2", "CHOOSER CHOICE'"),
    ("levels", "assignment chooser_is_in_choice 2 1", "there is no chooser 2"),
    ("levels", "assignment choosers_have_same_choices 0 2", "there is no chooser 2"),
    ("levels", "group 0 zero", "'zero' is no whole number"),
    ("levels", "group 0 3", "there is no choice 3: the day has choices 0 to 2"),
    ("schedule", "schedule 0 0", "there are 2 slots for 3 choices"),
    ("schedule", "schedule 0 0 1 -", "there are 4 slots for 3 choices"),
    ("schedule", "schedule 0 0 255", "more than a schedule can hold"),
    ("move 0 1", "move 3 1", "there is no choice 3"),
    ("move 0 1", "move 0", "write a move as"),
    ("limit", "greedy yes", "greedy stands alone"),
    ("seat 0 0", "seat 2 0 1", "there is no chooser 2"),
    ("seat 0 0", "seat 0 0", "write a seat as"),
    ("seat 0 0", "seat 0 1 2", "seats chooser 0 in slot 1 already"),
    ("seat 0 0", "values 1", "by values or by seats, not by both"),
];

#[test]
fn a_wrong_line_is_named() {
    for (place, (old, new, reason)) in WRONG.into_iter().enumerate() {
        let ran = seat(&format!("wrong-{place}.txt"), with(old, new), &[]);
        assert_eq!((ran.code, &*ran.out), (Some(1), ""), "{new}: {}", ran.messages);
        assert!(ran.messages.contains(reason), "{new}: {}", ran.messages);
        assert!(ran.line().is_some_and(|line| line > 0), "{new}: {}", ran.messages);
        assert!(ran.messages.trim_end().bytes().all(|byte| byte >= b' '), "{new}");
        assert_eq!(ran.messages.lines().count(), 1, "{new}: {}", ran.messages);
    }
}

/// Names that are wrong, and why.
const NAMES: [(&str, &str); 10] = [
    ("name", "write a name as"),
    ("name chooser 0", "write a name as"),
    ("name room 0 A", "write a name as"),
    ("name chooser x A", "'x' is no whole number"),
    ("name chooser 2 A", "there is no chooser 2: the day has choosers 0 to 1"),
    ("name slot 2 A", "there is no slot 2"),
    ("name choice 1 12", "could be taken for a number"),
    ("name choice 1 A\nname choice 1 B", "names choice 1 already"),
    ("name choice 1 A\nname choice 2 A", "choice 1 has the name 'A' already"),
    (
        "name choice 1 AAAAAAAAAAAAAAAAAAAAAAAAAAAAAAAAAAAAAAAAAAAAAAAAAAAAAAAAAAAAA",
        "60 characters at most",
    ),
];

#[test]
fn a_wrong_name_is_named() {
    for (place, (lines, reason)) in NAMES.into_iter().enumerate() {
        let ran = seat(&format!("name-{place}.txt"), format!("{SAMPLE}{lines}\n"), &[]);
        assert_eq!((ran.code, &*ran.out), (Some(1), ""), "{lines}: {}", ran.messages);
        assert!(ran.messages.contains(reason), "{lines}: {}", ran.messages);
        let line = SAMPLE.lines().count() + lines.lines().count();
        assert_eq!(ran.line(), Some(line), "{lines}: {}", ran.messages);
    }
}

#[test]
fn the_line_is_the_right_one() {
    let lines = [
        ("powers", "powers x", "powers"),
        ("costs", "costs 1", "costs"),
        ("preferences 1", "preferences 1 : 0", "preferences 1"),
        ("preferences 1", "", "choosers"),
        ("levels", "group 3", "levels"),
        ("move 0 0", "move 7 0", "move 0 0"),
        ("seat 1 0", "seat 1 2 0", "seat 1 0"),
    ];
    for (old, new, blamed) in lines {
        let ran = seat("line.txt", with(old, new), &[]);
        assert_eq!(ran.line(), Some(line_of(blamed)), "{new}: {}", ran.messages);
    }
    let mut bytes = SAMPLE.as_bytes().to_vec();
    let place = SAMPLE.find("slots").expect("a line");
    bytes[place] = 0xFF;
    let ran = seat("bytes.txt", bytes, &[]);
    assert_eq!(ran.line(), Some(line_of("slots")));
    assert!(ran.messages.contains("no text in UTF-8"));
}

#[test]
fn a_mark_of_the_encoding_is_told() {
    let ran = seat("mark.txt", format!("\u{feff}{SAMPLE}"), &[]);
    assert!(ran.messages.contains(":1: the file begins with a byte order mark"));
    let wide = SAMPLE.encode_utf16().flat_map(u16::to_le_bytes);
    let ran = seat("wide.txt", [0xFF, 0xFE].into_iter().chain(wide).collect::<Vec<_>>(), &[]);
    assert!(ran.messages.contains(":1: the file is in UTF-16"));
}

#[test]
fn a_missing_line_is_named() {
    for name in ["choosers", "slots", "max_preference", "powers", "costs", "schedule", "limit"] {
        let ran = seat(&format!("without-{name}.txt"), with(name, ""), &[]);
        assert_eq!(ran.code, Some(1), "{name}: {}", ran.messages);
        assert!(ran.messages.contains(&format!("without a line '{name}'")), "{}", ran.messages);
        assert_eq!(ran.line(), Some(SAMPLE.lines().count()));
    }
    assert_eq!(seat("empty.txt", b"", &[]).line(), Some(1));
}

/// What was printed before the values were looked at stays.
#[test]
fn a_wrong_count_of_values_keeps_what_was_done() {
    let ran = seat("count.txt", by_values("values 1 0 1"), &[]);
    assert_eq!(ran.code, Some(1));
    assert!(ran.out.ends_with("schedule: feasible\n"), "{}", ran.out);
    assert!(ran.messages.contains("there are 3 values for 8 edges"), "{}", ran.messages);
    assert_eq!(ran.line(), Some(by_values("values 1 0 1").lines().count()));
}

#[test]
fn a_file_is_not_too_long() {
    let ran = seat("long.txt", vec![b'#'; (1 << 20) + 1], &[]);
    assert_eq!(ran.code, Some(1));
    assert!(ran.messages.contains("is longer than 1048576 bytes"));
}

/// Bytes of the sample changed, left out and doubled, always in the same way.
#[test]
fn no_bytes_crash_it() {
    let mut state = 1_u64;
    let mut random = |end: usize| {
        state =
            state.wrapping_mul(6_364_136_223_846_793_005).wrapping_add(1_442_695_040_888_963_407);
        (state >> 33) as usize % end
    };
    for place in 0..400 {
        let mut bytes = SAMPLE.as_bytes().to_vec();
        for _ in 0..=random(4) {
            let at = random(bytes.len());
            match random(4) {
                0 => bytes[at] = random(256) as u8,
                1 => bytes[at] = b"0123456789-#:\n "[random(15)],
                2 => drop(bytes.remove(at)),
                _ => bytes.insert(at, bytes[random(bytes.len())]),
            }
        }
        let ran = seat(&format!("changed-{}.txt", place % 4), &bytes, &[]);
        assert!(ran.code.is_some_and(|code| code <= 3), "{:?}, {}", ran.code, ran.messages);
        assert_eq!(ran.code == Some(1), ran.out.is_empty(), "{}", ran.messages);
        assert_eq!(matches!(ran.code, Some(0 | 3)), ran.messages.is_empty(), "{}", ran.messages);
    }
}
