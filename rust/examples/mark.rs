//! Marks a group's corrections.
//!
//!     cargo run --release --example mark -- MODEL-AND-SHOTS LISTS
//!
//! MODEL-AND-SHOTS has frames 01 to 06 of docs/RULES.md, "Frames": a model, then shots with their true observables.
//! LISTS has one frame 86 a shot, the group's correction, in the edge numbers that example `edges` lists. For each shot
//! a line says Pass, Differs with the lowest wrong detector, or the refusal with its code. Then come the counts; the
//! group's failures, which are the shots that passed and of which an observable differs from the true one, with their
//! rate among those that passed; and the decoder's rate on the same shots. A shot that did not pass has no row of the
//! group's, and is not in the group's rate. The exit status is 0 once all is marked, whatever the marks, and 1 where a
//! file is wrong.

mod common;

use common::{bytes, graph_of, in_file, program, unwritten, Out, Wrong};
use pavrenni::frames::{self, Recording};
use pavrenni::{Error, Item, Marking};
use std::io::{self, Write};
use std::process::ExitCode;

#[derive(Default)]
struct Counts {
    passed: usize,
    differing: usize,
    refused: usize,
    /// Of those that passed.
    failures: usize,
}

fn main() -> ExitCode {
    program("mark", run)
}

fn run(arguments: &[String], out: &mut Out) -> Result<(), Wrong> {
    let [recorded, handed_in] = arguments else {
        return Err("give two files: a model with its shots in frames, and a list a shot in frames 86".into());
    };
    let recording = frames::read(&bytes(recorded)?).map_err(in_file(recorded))?;
    let lists = frames::read_lists(&bytes(handed_in)?).map_err(in_file(handed_in))?;
    if lists.len() != recording.shots {
        return Err(format!("{handed_in} has {} lists, and {recorded} has {} shots", lists.len(), recording.shots));
    }
    let graph = graph_of(&recording.model).map_err(in_file(recorded))?;
    let mut decoder = graph.decoder();
    let mut counts = Counts::default();
    let mut row = vec![0; graph.observables.div_ceil(64)];
    for (number, list) in lists.iter().enumerate() {
        let (shot, truth) = shot_of(&recording, number);
        let marking = decoder.mark(shot, graph.detectors, list, &mut row);
        writeln!(out, "shot {number}: {}", counts.enter(marking)).map_err(unwritten)?;
        counts.failures += usize::from(marking == Ok(Marking::Pass) && differ(&row, truth, graph.observables));
    }
    let rate = decoder.rate(recording.packed(), recording.packed_truth());
    counts.write(rate.map(|answer| answer.rate), out).map_err(unwritten)
}

/// The row and the true observables of a shot that the recording has.
fn shot_of(recording: &Recording, number: usize) -> (&[u64], &[u64]) {
    let rows = recording.shot(number).zip(recording.true_observables(number));
    rows.expect("frames are read to whole shots")
}

/// Whether any observable differs. Bits past the last one are none.
fn differ(row: &[u64], truth: &[u64], observables: usize) -> bool {
    (0..observables).any(|observable| (row[observable / 64] ^ truth[observable / 64]) >> (observable % 64) & 1 == 1)
}

impl Counts {
    /// Counts a marking and says it.
    fn enter(&mut self, marking: Result<Marking, Error>) -> String {
        match marking {
            Ok(Marking::Pass) => {
                self.passed += 1;
                "Pass".into()
            }
            Ok(differs) => {
                self.differing += 1;
                differs.detector().map_or("Differs".into(), |detector| format!("Differs at detector {detector}"))
            }
            Err(mut refusal) => {
                self.refused += 1;
                // the line names the shot, which the marker sees alone, as shot 0
                refusal.at = refusal.at.filter(|item| *item != Item::Shot(0));
                format!("refused with {refusal}")
            }
        }
    }

    /// The counts, the group's rate and the decoder's.
    fn write(&self, decoder: Result<f64, Error>, out: &mut Out) -> io::Result<()> {
        let Counts { passed, differing, refused, failures } = self;
        writeln!(out, "shots {}: Pass {passed}, Differs {differing}, refused {refused}", passed + differing + refused)?;
        if *passed == 0 {
            writeln!(out, "group: none passed, no rate")?;
        } else {
            writeln!(out, "group: {failures} failures of {passed} passed, rate {}", *failures as f64 / *passed as f64)?;
        }
        match decoder {
            Ok(rate) => writeln!(out, "decoder: rate {rate}"),
            Err(refusal) => writeln!(out, "decoder: rate refused with {refusal}"),
        }
    }
}
