//! The harness itself: cases come again, slips are found and made small, the stored replay is what the generator writes.

use differential::case::{case, Case, Input, Kind, KINDS};
use differential::compare::{check, Seen};
use differential::frames;
use differential::reduce::reduce;
use differential::stand_in::StandIn;
use differential::stated::Reading;
use std::time::Duration;

fn fails(case: &Case, reading: Reading) -> bool {
    check(case, &mut StandIn::of(reading), &mut Seen::default()).is_err()
}

#[test]
fn a_case_comes_again() {
    for (name, kind) in KINDS.into_iter().filter(|(name, _)| *name != "limits") {
        for number in 0..8 {
            let text = case(kind, 7, number, 2).to_string();
            assert_eq!(text, case(kind, 7, number, 2).to_string(), "{name}");
        }
    }
    assert_ne!(case(Kind::Small, 7, 1, 0).to_string(), case(Kind::Small, 8, 1, 0).to_string());
}

#[test]
fn a_slip_is_found_and_made_small() {
    let slip = Reading { count_by_cluster: true, ..Reading::default() };
    let found = (0..2000).map(|number| case(Kind::Tables, 1, number, 0)).find(|case| fails(case, slip)).expect("the slip shows");
    let small = reduce(found, Duration::from_secs(20), &mut |case| fails(case, slip));
    assert!(fails(&small, slip) && !fails(&small, Reading::default()));
    let Input::Graph(graph) = small.input else { panic!("a graph") };
    assert!(graph.edges() <= 8 && small.rows.shots == 1, "{graph}");
}

/// The cases of a replay text: name, input, output.
fn cases(text: &str) -> Vec<(String, String, String)> {
    let mut out = Vec::new();
    for part in text.strip_prefix("= ").unwrap().strip_suffix("\n=\n").unwrap().split("\n= ") {
        let (name, rest) = part.split_once('\n').unwrap();
        let rest = format!("\n{rest}\n");
        let (input, output) = rest.split_once("\n-\n").or_else(|| rest.split_once("\n-.\n")).unwrap();
        let feed = if rest.contains("\n-\n") && !input.is_empty() { "\n" } else { "" };
        out.push((name.into(), format!("{}{feed}", input.strip_prefix('\n').unwrap_or(input)), output.into()));
    }
    out
}

#[test]
fn the_stored_replay_is_the_generators() {
    let text = include_str!("../replay.txt");
    let all = cases(text);
    assert!(all.len() >= 300 && text.len() < 2_000_000);
    for (name, input, output) in &all {
        assert_eq!(&frames::answer(input.as_bytes()), output, "{name}");
    }
    for code in ["ff01", "ff03", "ff04", "ff05", "ff06", "ff09", "ff0b"] {
        assert!(all.iter().any(|(_, _, output)| output.ends_with(&format!("{code}\n"))), "no input ends in {code}");
    }
}
