//! The example `decode`, run on files.

mod common;

use common::programs::{fails, fails_after, run, text, writes, NO_COVER, RECORDED, STUCK};
use pavrenni::frames::{self, Recording};
use pavrenni::{mark, Mechanism, Model};
use std::process::Output;

/// A memory experiment of a rotated surface code with d = 5, and what `bench` answers.
const MEMORY: &str = include_str!("../../examples/memory_d5.in");
const ANSWERED: &str = include_str!("../../examples/memory_d5.out");

/// The lines of the four shots of `RECORDED`, and the last one: the fourth fails.
const SHOTS: [&str; 4] = [
    "850000000000000001\n86000200010000\n",
    "850000000000000001\n8600010000\n",
    "850000000000000000\n8600010001\n",
    "850000000000000001\n86000200010000\n",
];
const LAST: &str = "8f00000004000000013fd0000000000000\n";

fn decode(recorded: &str) -> Output {
    run("decode", &["recorded"], &[("recorded", recorded)], "")
}

/// The message of a frame that is refused at this place.
fn frame(place: &str, reason: &str) -> String {
    format!("decode: recorded: code 3{place}: frame digits, kind, length or order are wrong: {reason}")
}

#[test]
fn a_memory_experiment() {
    writes(&decode(MEMORY), ANSWERED);
    writes(&run("decode", &["-"], &[], MEMORY), ANSWERED);
}

#[test]
fn each_shot_has_two_lines() {
    writes(&decode(RECORDED), &[&SHOTS.concat(), LAST].concat());
    writes(&decode(RECORDED.trim_end()), &[&SHOTS.concat(), LAST].concat());
    // no shots, and rows of no words
    let model: String = RECORDED.lines().take(4).map(|line| format!("{line}\n")).collect();
    writes(&decode(&model), "8f00000000000000000000000000000000\n");
    writes(&decode("0100000000\n04\n05\n06\n05\n06\n"), "85\n860000\n85\n860000\n8f00000002000000000000000000000000\n");
}

/// As many detectors and mechanisms as the library takes: detector d with the next four, those past the end with the
/// boundary, an observable for each of the four.
fn largest() -> Model {
    let mechanism = |i: u32| {
        let (d, step) = (i % 4096, i / 4096);
        let ends = [d, d + step + 1];
        Mechanism::new(0.01 + f64::from(step) / 64.0, &ends[..if ends[1] < 4096 { 2 } else { 1 }], [step])
    };
    Model::new(4096, 4).with_mechanisms((0..16384).map(mechanism))
}

#[test]
fn a_model_that_bench_cannot_hold() {
    let mut rows = vec![0; 2 * 64];
    (rows[0], rows[63], rows[64 + 30]) = (0b10_0101, 1 << 63, u64::MAX);
    let recording = Recording { model: largest(), shots: 2, rows, truth: vec![15, 0] };
    let recorded = frames::write(&recording).unwrap();
    let output = decode(&recorded);
    assert_eq!((text(&output.stderr), output.status.code()), ("", Some(0)));
    let lines: Vec<&str> = text(&output.stdout).lines().collect();
    assert_eq!(lines.len(), 5);
    let graph = recording.model.compile().unwrap();
    let lists = frames::read_lists([lines[1], lines[3]].join("\n").as_bytes()).unwrap();
    let mut failures = 0;
    for (shot, list) in lists.iter().enumerate() {
        let mut row = [0];
        assert!(mark(&graph, recording.shot(shot).unwrap(), 4096, list, &mut row).unwrap().passed());
        assert_eq!(lines[2 * shot], frames::write_row(&row).trim_end());
        failures += u32::from(row != recording.true_observables(shot).unwrap());
    }
    assert_eq!(lines[4], frames::write_rate(2, failures, f64::from(failures) / 2.0).trim_end());

    let limit = "decode: recorded: code 1: a count is over its limit, or the decomposed model finds no place";
    fails(&decode(&recorded.replacen("0110000004", "0110010004", 1)), limit);
    let (model, shots) = recorded.split_at(recorded.find("\n04\n").unwrap());
    fails(&decode(&format!("{model}\n023fd0000000000000010000000{shots}")), &frame(", line 16386", "the number of digits is odd"));
    fails(&decode(&format!("{model}\n023fd000000000000001000000{shots}")), limit);
}

#[test]
fn a_damaged_line() {
    let digit = RECORDED.replacen("050000000000000003", "05000000000000000x", 1);
    fails_after(&decode(&digit), &SHOTS[..2].concat(), &frame(", line 9", "a digit is not lower-case hexadecimal"));
    let twice = RECORDED.replacen("060000000000000000", "050000000000000000", 1);
    let reason = "a frame 05 follows another, and its frame 06 is missing";
    fails_after(&decode(&twice), &SHOTS[..2].concat(), &frame(", line 10", reason));
    fails(&decode(&RECORDED.replacen("0200000000", "02000000", 1)), &frame(", line 3", "the frame is too short"));
    fails(&decode("0100020001\n"), &frame("", "the input ends before frame 04"));
    let open: String = RECORDED.lines().take(7).map(|line| format!("{line}\n")).collect();
    fails_after(&decode(&open), SHOTS[0], &frame("", "the input ends after a frame 05, before its frame 06"));
    let message = frame(", line 1", "the line is empty").replace("recorded", "standard input");
    fails(&run("decode", &["-"], &[], "\n"), &message);
}

#[test]
fn a_mechanism_with_no_cover() {
    fails(&decode(NO_COVER), "decode: recorded: code 6, mechanism 1: no choice of smaller mechanisms covers it");
    // the model is refused at its end, before a damaged line behind it, and after one within it
    fails(&decode(&format!("{NO_COVER}x")), "decode: recorded: code 6, mechanism 1: no choice of smaller mechanisms covers it");
    fails(&decode(&NO_COVER.replace("\n04", "\n07")), &frame(", line 4", "no frame of this input has this kind"));
}

#[test]
fn a_shot_that_is_refused() {
    let stuck = "no set of edges explains it; the cluster of detector 0 is stuck, rounds finished: 1";
    fails(&decode(STUCK), &format!("decode: recorded: code 11, shot 0: {stuck}"));
    // behind a shot that is decoded, and before a line that is damaged
    let second = STUCK.replace("\n04\n", "\n04\n050000000000000003\n060000000000000000\n") + "x";
    let first = "850000000000000000\n8600010000\n";
    fails_after(&decode(&second), first, &format!("decode: recorded: code 11, shot 1: {stuck}"));
    // padding, of the row and of the true observables; the latter also of a shot that is stuck
    let row = RECORDED.replacen("050000000000000003", "050000000000000007", 1);
    fails_after(&decode(&row), &SHOTS[..2].concat(), "decode: recorded: code 9, shot 2: a bit past the width is set");
    let truth = RECORDED.replacen("060000000000000000", "060000000000000002", 1);
    let message = "decode: recorded: code 9, shot 2: a bit past the width is set, of the true observables";
    fails_after(&decode(&truth), &SHOTS[..2].concat(), message);
    let both = STUCK.replacen("060000000000000000", "068000000000000000", 1);
    fails(&decode(&both), "decode: recorded: code 9, shot 0: a bit past the width is set, of the true observables");
}

#[test]
fn wrong_commands() {
    for arguments in [&[][..], &["recorded", "more"][..]] {
        let output = run("decode", arguments, &[], "");
        fails(&output, "decode: give one file: a model with its shots in frames (- is standard input)");
    }
    let output = run("decode", &["absent"], &[], "");
    assert!(text(&output.stderr).starts_with("decode: absent: "));
    assert_eq!((text(&output.stdout), output.status.code()), ("", Some(1)));
}
