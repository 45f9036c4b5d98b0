//! Frames (docs/RULES.md): written, and answered as program `bench` must answer them, with the original behind. The rules of lines, places and
//! refusals are 01's; decomposition, graph, rows, lists and rate are the original's.

use crate::model::{words, Mechanism, Model, ModelSize, Packed};
use crate::{original, rules};
use published::qec::decoder::{probe, UnionFindDecoder};
use std::fmt::Write;

/// What the program holds, before and after decomposition.
const PLACES: ModelSize = ModelSize { mechanisms: 1_024, components: 1_024, entries: 8_192 };
const MAX_DETECTORS: usize = 256;

fn write_lists(out: &mut String, detectors: &[usize], observables: &[usize]) {
    write!(out, "{:02x}{:02x}", detectors.len(), observables.len()).unwrap();
    detectors.iter().chain(observables).for_each(|x| write!(out, "{x:04x}").unwrap());
    out.push('\n');
}

fn write_words(out: &mut String, kind: &str, row: &[u64]) {
    out.push_str(kind);
    row.iter().for_each(|word| write!(out, "{word:016x}").unwrap());
    out.push('\n');
}

/// A model and its shots as frames.
pub fn write(model: &Model, rows: &[Vec<u64>], truth: &[Vec<u64>]) -> String {
    let mut out = format!("01{:04x}{:04x}\n", model.detectors, model.observables);
    for m in &model.mechanisms {
        write!(out, "02{:016x}", m.probability.to_bits()).unwrap();
        write_lists(&mut out, &m.detectors, &m.observables);
        for (detectors, observables) in &m.components {
            out.push_str("03");
            write_lists(&mut out, detectors, observables);
        }
    }
    out.push_str("04\n");
    for (row, observables) in rows.iter().zip(truth) {
        write_words(&mut out, "05", row);
        write_words(&mut out, "06", observables);
    }
    out
}

/// Refusals as frames tell them: the code alone.
type Line = Result<(), u8>;

enum State {
    Start,
    Model(Model),
    Shots(Box<Shots>),
}

struct Shots {
    model: Model,
    decoder: UnionFindDecoder,
    capture: probe::Capture,
    rows: Vec<Vec<u64>>,
    truth: Vec<Vec<u64>>,
    failures: u32,
    /// The row of a 05 that waits for its 06.
    waiting: Option<Vec<u64>>,
}

/// What the program writes for this input.
pub fn answer(input: &[u8]) -> String {
    let mut out = String::new();
    let mut state = State::Start;
    let text = input.strip_suffix(b"\n").unwrap_or(input);
    let lines = if input.is_empty() { vec![] } else { text.split(|&b| b == b'\n').collect::<Vec<_>>() };
    let read = lines.into_iter().try_for_each(|line| read_line(&mut state, line, &mut out));
    if let Err(code) = read.and_then(|()| finish(&state, &mut out)) {
        writeln!(out, "ff{code:02x}").unwrap();
    }
    out
}

fn bytes_of(line: &[u8]) -> Result<Vec<u8>, u8> {
    let digit = |b: u8| match b {
        b'0'..=b'9' => Ok(b - b'0'),
        b'a'..=b'f' => Ok(b - b'a' + 10),
        _ => Err(3),
    };
    if line.len() % 2 != 0 {
        return Err(3);
    }
    line.chunks(2).map(|pair| Ok(digit(pair[0])? << 4 | digit(pair[1])?)).collect()
}

fn read_line(state: &mut State, line: &[u8], out: &mut String) -> Line {
    let bytes = bytes_of(line)?;
    let (kind, rest) = bytes.split_first().ok_or(3)?;
    match (kind, &mut *state) {
        (1, State::Start) => read_head(state, rest),
        (2, State::Model(model)) => read_mechanism(model, rest),
        (3, State::Model(model)) => read_component(model, rest),
        (4, State::Model(model)) if rest.is_empty() => {
            let shots = compile(model)?;
            *state = State::Shots(Box::new(shots));
            Ok(())
        }
        (5, State::Shots(shots)) if shots.waiting.is_none() => {
            shots.waiting = Some(read_words(rest, shots.model.detectors)?);
            Ok(())
        }
        (6, State::Shots(shots)) => {
            let row = shots.waiting.take().ok_or(3)?;
            let observables = read_words(rest, shots.model.observables)?;
            decode(shots, row, observables, out)
        }
        _ => Err(3),
    }
}

fn read_head(state: &mut State, rest: &[u8]) -> Line {
    let [a, b, c, d] = *rest else { return Err(3) };
    let (detectors, observables) = (usize::from(u16::from_be_bytes([a, b])), usize::from(u16::from_be_bytes([c, d])));
    if detectors > MAX_DETECTORS || observables > rules::MAX_OBSERVABLES {
        return Err(1);
    }
    *state = State::Model(Model { detectors, observables, mechanisms: Vec::new() });
    Ok(())
}

/// Counts of detectors and observables, then as many indices as they tell of.
fn read_lists(rest: &[u8]) -> Result<(Vec<usize>, Vec<usize>), u8> {
    let [detectors, observables, indices @ ..] = rest else { return Err(3) };
    if indices.len() != 2 * (usize::from(*detectors) + usize::from(*observables)) {
        return Err(3);
    }
    let all: Vec<usize> = indices.chunks(2).map(|x| usize::from(u16::from_be_bytes([x[0], x[1]]))).collect();
    let (d, o) = all.split_at(usize::from(*detectors));
    Ok((d.to_vec(), o.to_vec()))
}

fn room(size: ModelSize) -> Line {
    let over = size.mechanisms > PLACES.mechanisms || size.components > PLACES.components || size.entries > PLACES.entries;
    if over {
        Err(1)
    } else {
        Ok(())
    }
}

fn read_mechanism(model: &mut Model, rest: &[u8]) -> Line {
    if rest.len() < 8 {
        return Err(3);
    }
    let (bits, lists) = rest.split_at(8);
    let (detectors, observables) = read_lists(lists)?;
    let probability = f64::from_bits(u64::from_be_bytes(bits.try_into().unwrap()));
    model.mechanisms.push(Mechanism { probability, detectors, observables, components: Vec::new() });
    room(model.size())
}

fn read_component(model: &mut Model, rest: &[u8]) -> Line {
    let last = model.mechanisms.last_mut().ok_or(3)?;
    last.components.push(read_lists(rest)?);
    room(model.size())
}

fn read_words(rest: &[u8], bits: usize) -> Result<Vec<u64>, u8> {
    if rest.len() != 8 * words(bits) {
        return Err(3);
    }
    Ok(rest.chunks(8).map(|word| u64::from_be_bytes(word.try_into().unwrap())).collect())
}

fn compile(model: &Model) -> Result<Shots, u8> {
    let code = |refusal: crate::model::Refusal| refusal.code as u8;
    rules::check_model(model).map_err(code)?;
    let decomposed = original::decompose_within(model, PLACES).map_err(code)?;
    let decoder = original::compile(&decomposed).map_err(code)?;
    let capture = probe::Capture::new(&decoder);
    Ok(Shots { model: model.clone(), decoder, capture, rows: vec![], truth: vec![], failures: 0, waiting: None })
}

fn decode(shots: &mut Shots, row: Vec<u64>, observables: Vec<u64>, out: &mut String) -> Line {
    let (d, o) = (shots.model.detectors, shots.model.observables);
    let code = |refusal: crate::model::Refusal| refusal.code as u8;
    original::pack(&Packed::of(&[observables.clone()], o)).map_err(code)?;
    let told = original::batch(&shots.decoder, &Packed::of(&[row.clone()], d)).map_err(code)?;
    let list = shots.capture.shot_list(&row).list;
    write_words(out, "85", &told);
    write!(out, "86{:04x}", list.len()).unwrap();
    list.iter().for_each(|edge| write!(out, "{edge:04x}").unwrap());
    out.push('\n');
    shots.failures += u32::from(told != observables);
    shots.rows.push(row);
    shots.truth.push(observables);
    Ok(())
}

fn finish(state: &State, out: &mut String) -> Line {
    let State::Shots(shots) = state else { return Err(3) };
    if shots.waiting.is_some() {
        return Err(3);
    }
    let (rows, truth) = (Packed::of(&shots.rows, shots.model.detectors), Packed::of(&shots.truth, shots.model.observables));
    let rate = original::rate(&shots.decoder, &rows, &truth).expect("every shot was decoded");
    writeln!(out, "8f{:08x}{:08x}{:016x}", rows.shots, shots.failures, rate.to_bits()).unwrap();
    Ok(())
}

#[cfg(test)]
mod tests {
    use super::answer;

    const EXAMPLE: &str = "0100020001\n023fd0000000000000010100000000\n023fd0000000000000020000000001\n04\n";

    #[test]
    fn the_example_of_document_01() {
        let input = format!("{EXAMPLE}050000000000000002\n060000000000000001\n");
        let output = "850000000000000001\n86000200010000\n8f00000001000000000000000000000000\n";
        assert_eq!(answer(input.as_bytes()), output);
        assert_eq!(answer(input.trim_end().as_bytes()), output);
    }

    #[test]
    fn refusals_end_the_output() {
        let with = |rest: &str| answer(format!("{EXAMPLE}{rest}").as_bytes());
        assert_eq!(answer(b""), "ff03\n");
        assert_eq!(with(""), "8f00000000000000000000000000000000\n");
        assert_eq!(with("050000000000000002\n"), "ff03\n");
        assert_eq!(with("050000000000000004\n060000000000000000\n"), "ff09\n");
        assert_eq!(with("050000000000000000\n060000000000000002\n"), "ff09\n");
        assert_eq!(answer(b"0101010001\n"), "ff01\n");
        assert_eq!(answer(b"010101000\n"), "ff03\n");
    }
}
