//! Decodes a file of frames.
//!
//!     cargo run --release --example decode -- MODEL-AND-SHOTS
//!
//! MODEL-AND-SHOTS has frames 01 to 06 of docs/RULES.md, "Frames": a model, then shots with their true observables; `-`
//! is standard input. The output is that of program `bench`: for each shot an 85 with the predicted observables and an
//! 86 with the correction, at the end an 8f with shots, failures and rate. Models may be as large as the library takes,
//! which is 4,096 detectors and 16,384 mechanisms; limits are looked at once the model is read. Where `bench` writes
//! the line ff, this writes to standard error: the code, what it names, its sentence, and of a damaged line its number
//! and the reason. The exit status is then 1, else 0.

mod common;

use common::{bytes, graph_of, in_file, program, unwritten, Out, Wrong};
use pavrenni::frames::{self, RecordedShot};
use pavrenni::{BoundDecoder, Code, Item};
use std::io::Write;
use std::process::ExitCode;

fn main() -> ExitCode {
    program("decode", run)
}

fn run(arguments: &[String], out: &mut Out) -> Result<(), Wrong> {
    let [name] = arguments else {
        return Err("give one file: a model with its shots in frames (- is standard input)".into());
    };
    let text = bytes(name)?;
    let (model, recorded) = frames::read_model(&text).map_err(in_file(name))?;
    let graph = graph_of(&model).map_err(in_file(name))?;
    let mut decoder = graph.decoder();
    let (mut shots, mut failures): (u32, u32) = (0, 0);
    for shot in recorded {
        let shot = shot.map_err(in_file(name))?;
        let (lines, failed) = decode(&mut decoder, shots, &shot).map_err(in_file(name))?;
        out.write_all(lines.as_bytes()).map_err(unwritten)?;
        failures += u32::from(failed);
        shots = shots.checked_add(1).ok_or("frame 8f counts shots in four bytes, and there are more")?;
    }
    let rate = if shots == 0 { 0.0 } else { f64::from(failures) / f64::from(shots) };
    out.write_all(frames::write_rate(shots, failures, rate).as_bytes()).map_err(unwritten)
}

/// The lines of a shot, and whether it fails: whether a predicted observable differs from the true one.
fn decode(decoder: &mut BoundDecoder, number: u32, shot: &RecordedShot) -> Result<(String, bool), Wrong> {
    let (detectors, observables) = (decoder.graph().detectors, decoder.graph().observables);
    let at = Item::Shot(number as usize);
    if past_width(&shot.truth, observables) {
        let code = Code::Padding;
        return Err(format!("code {}, {at}: {code}, of the true observables", code.number()));
    }
    let mut row = vec![0; shot.truth.len()];
    let decoded = decoder.decode_shot(&shot.row, detectors, &mut row).map_err(|mut refusal| {
        // decoded alone, every shot is shot 0
        refusal.at = refusal.at.map(|_| at);
        refusal.to_string()
    })?;
    let list = frames::write_list(decoded.list).map_err(|refusal| refusal.to_string())?;
    Ok((frames::write_row(&row) + &list, row != shot.truth))
}

/// Whether a row has a bit past its width.
fn past_width(row: &[u64], width: usize) -> bool {
    width % 64 > 0 && row.last().is_some_and(|last| last >> (width % 64) != 0)
}
