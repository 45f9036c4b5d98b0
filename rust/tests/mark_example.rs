//! The example `mark`, run on files.

mod common;

use common::programs::{self, fails, text, writes, RECORDED, STUCK};
use std::process::Output;

/// Explains its shot; flips nothing; names an edge twice; explains its shot.
const LISTS: &str = "86000200010000
860000
86000200010001
86000200010000
";

/// Runs it on files with these contents; the names in its messages are `recorded` and `lists`.
fn run(recorded: &str, lists: &str) -> Output {
    programs::run("mark", &["recorded", "lists"], &[("recorded", recorded), ("lists", lists)], "")
}

#[test]
fn marks_each_shot() {
    writes(
        &run(RECORDED, LISTS),
        "shot 0: Pass
shot 1: Differs at detector 0
shot 2: refused with code 13: an edge of the list is unknown or repeated
shot 3: Pass
shots 4: Pass 2, Differs 1, refused 1
group: 1 failures of 2 passed, rate 0.5
decoder: rate 0.25
",
    );
}

/// The last two lines for these lists.
fn rates(recorded: &str, lists: &str) -> (String, String) {
    let output = run(recorded, lists);
    assert_eq!((text(&output.stderr), output.status.code()), ("", Some(0)));
    let mut lines = text(&output.stdout).lines().rev().map(String::from);
    let decoder = lines.next().unwrap();
    (lines.next().unwrap(), decoder)
}

#[test]
fn each_has_its_own_rate() {
    let decoder = "decoder: rate 0.25".to_string();
    let group = |line: &str| (line.to_string(), decoder.clone());
    let all = "86000200010000\n8600010000\n8600010001\n86000200010000\n";
    assert_eq!(rates(RECORDED, all), group("group: 1 failures of 4 passed, rate 0.25"));
    // the shot that fails is not passed, or is the only one that is
    assert_eq!(
        rates(RECORDED, &all.replacen("86000200010000\n", "860000\n", 1)),
        group("group: 1 failures of 3 passed, rate 0.3333333333333333")
    );
    let last = "860000\n860000\n860000\n86000200010000\n";
    assert_eq!(rates(RECORDED, last), group("group: 1 failures of 1 passed, rate 1"));
    let first = "86000200010000\n860000\n860000\n860000\n";
    assert_eq!(rates(RECORDED, first), group("group: 0 failures of 1 passed, rate 0"));
    // none passes
    assert_eq!(rates(RECORDED, &"860000\n".repeat(4)), group("group: none passed, no rate"));
    assert_eq!(rates(RECORDED, &"860001ffff\n".repeat(4)), group("group: none passed, no rate"));
}

/// D0 at the boundary; D0 with D1; D1 at the boundary with observable 64. One shot: D0, and no observable was flipped.
const TWO_WAYS: &str = "0100020041
023fd000000000000001000000
023fc0000000000000020000000001
023fc0000000000000010100010040
04
050000000000000001
0600000000000000000000000000000000
";

#[test]
fn passes_with_the_wrong_observable() {
    let decoder = "decoder: rate 0".to_string();
    assert_eq!(rates(TWO_WAYS, "8600010000\n"), ("group: 0 failures of 1 passed, rate 0".into(), decoder.clone()));
    assert_eq!(rates(TWO_WAYS, "86000200010002\n"), ("group: 1 failures of 1 passed, rate 1".into(), decoder));
}

#[test]
fn a_group_that_hands_in_the_decoders_lists() {
    let memory = include_str!("../../examples/memory_d5.in");
    let answered = include_str!("../../examples/memory_d5.out");
    let lists: String = answered.split_inclusive('\n').filter(|line| line.starts_with("86")).collect();
    let group = "group: 4 failures of 300 passed, rate 0.013333333333333334";
    assert_eq!(rates(memory, &lists), (group.into(), "decoder: rate 0.013333333333333334".into()));
}

#[test]
fn no_shots() {
    let model: String = RECORDED.lines().take(4).map(|line| format!("{line}\n")).collect();
    writes(&run(&model, ""), "shots 0: Pass 0, Differs 0, refused 0\ngroup: none passed, no rate\ndecoder: rate 0\n");
}

#[test]
fn shots_that_are_refused() {
    // padding in the second shot: the marker refuses that shot, the rate all
    let recorded = RECORDED.replacen("050000000000000001", "050000000000000004", 1);
    let lists = "86000200010000\n8600010000\n8600010001\n86000200010000\n";
    writes(
        &run(&recorded, lists),
        "shot 0: Pass
shot 1: refused with code 9: a bit past the width is set
shot 2: Pass
shot 3: Pass
shots 4: Pass 3, Differs 0, refused 1
group: 1 failures of 3 passed, rate 0.3333333333333333
decoder: rate refused with code 9, shot 1: a bit past the width is set
",
    );
    // padding in the true observables of the first: no observable, so no failure of the group's
    let recorded = RECORDED.replacen("060000000000000001", "060000000000000003", 1);
    assert_eq!(
        rates(&recorded, lists),
        (
            "group: 1 failures of 4 passed, rate 0.25".into(),
            "decoder: rate refused with code 9, shot 0: a bit past the width is set".into()
        )
    );
}

#[test]
fn stuck_shots() {
    // the pair edge alone: no list passes for D1, and there is no rate
    writes(
        &run(STUCK, "8600010000\n"),
        "shot 0: Differs at detector 0
shots 1: Pass 0, Differs 1, refused 0
group: none passed, no rate
decoder: rate refused with code 11, shot 0: no set of edges explains it; the cluster of detector 0 is stuck
",
    );
}

#[test]
fn wrong_files() {
    let frame = |place: &str, reason: &str| format!("mark: {place}: frame digits, kind, length or order are wrong: {reason}");
    fails(&run("01000200x1\n", ""), &frame("recorded: code 3, line 1", "a digit is not lower-case hexadecimal"));
    fails(&run("0100020001\n", ""), &frame("recorded: code 3", "the input ends before frame 04"));
    fails(&run(RECORDED, "85000200010000\n"), &frame("lists: code 3, line 1", "a correction list is frame 86"));
    fails(&run(RECORDED, "860000\n"), "mark: lists has 1 lists, and recorded has 4 shots");
    fails(&run(RECORDED, &"860000\n".repeat(5)), "mark: lists has 5 lists, and recorded has 4 shots");
    let probability = RECORDED.replacen("3fd0", "3ff0", 1);
    let message = "the probability is not in [0, 1), or the weight is neither from 0 to 1,024 nor infinity";
    fails(&run(&probability, &"860000\n".repeat(4)), &format!("mark: recorded: code 4, mechanism 0: {message}"));
}

#[test]
fn wrong_commands() {
    let output = programs::run("mark", &["recorded"], &[], "");
    fails(&output, "mark: give two files: a model with its shots in frames, and a list a shot in frames 86");
    let output = programs::run("mark", &["absent", "lists"], &[], "");
    assert!(text(&output.stderr).starts_with("mark: absent: "));
    assert_eq!((text(&output.stdout), output.status.code()), ("", Some(1)));
}
