//! The checks of docs/RULES.md that the original does not have, written from its words: a model's lists and probabilities, a lent graph, the marker.

use crate::calls::Mark;
use crate::model::{bit, words, Graph, Model, Packed, Refusal, Symptom, BOUNDARY};

pub const MAX_DETECTORS: usize = 4_096;
pub const MAX_OBSERVABLES: usize = 128;
pub const MAX_MECHANISMS: usize = 16_384;
pub const MAX_SHOTS: usize = 16_777_216;
pub const MAX_ENTRIES: usize = 16;
pub const MAX_WEIGHT: f64 = 1_024.0;

fn list_ok(list: &[usize], below: usize) -> bool {
    list.len() <= MAX_ENTRIES && list.iter().all(|&x| x < below) && list.windows(2).all(|w| w[0] < w[1])
}

/// Whether a mechanism's lists pass: strictly ascending, in range, at most 16 entries and 16 components.
pub fn lists_ok(model: &Model, mechanism: usize) -> bool {
    let m = &model.mechanisms[mechanism];
    let pair = |(d, o): &Symptom| list_ok(d, model.detectors) && list_ok(o, model.observables);
    pair(&(m.detectors.clone(), m.observables.clone())) && m.components.len() <= MAX_ENTRIES && m.components.iter().all(pair)
}

/// The limits of a model or a graph.
pub fn limits(detectors: usize, observables: usize, mechanisms: usize) -> Result<(), Refusal> {
    let over = detectors > MAX_DETECTORS || observables > MAX_OBSERVABLES || mechanisms > MAX_MECHANISMS;
    if over {
        Err(Refusal::new(1, 0, 0))
    } else {
        Ok(())
    }
}

/// The check of a model before decomposition: mechanism by mechanism, lists then probability.
pub fn check_model(model: &Model) -> Result<(), Refusal> {
    limits(model.detectors, model.observables, model.mechanisms.len())?;
    for (at, m) in model.mechanisms.iter().enumerate() {
        if !lists_ok(model, at) {
            return Err(Refusal::new(5, at, 0));
        }
        if !(0.0..1.0).contains(&m.probability) {
            return Err(Refusal::new(4, at, 0));
        }
    }
    Ok(())
}

/// The check of a lent graph: edge by edge, 5 before 4.
pub fn check_graph(graph: &Graph) -> Result<(), Refusal> {
    limits(graph.detectors, graph.observables, graph.edges())?;
    for e in 0..graph.edges() {
        let (u, v, weight) = (graph.edge_u[e], graph.edge_v[e], graph.edge_weight[e]);
        let ends = (u as usize) < graph.detectors && (v == BOUNDARY || (v as usize) < graph.detectors && u < v);
        if !ends || !padding_clear(graph.edge_observables(e), graph.observables) {
            return Err(Refusal::new(5, e, 0));
        }
        if !((0.0..=MAX_WEIGHT).contains(&weight) || weight == f64::INFINITY) {
            return Err(Refusal::new(4, e, 0));
        }
    }
    Ok(())
}

fn padding_clear(row: &[u64], width: usize) -> bool {
    width % 64 == 0 || row[width / 64] >> (width % 64) == 0
}

/// Limits come before everything else.
pub fn check_shots(rows: &Packed) -> Result<(), Refusal> {
    if rows.shots > MAX_SHOTS {
        Err(Refusal::new(1, 0, 0))
    } else {
        Ok(())
    }
}

/// Rows of a batch: their length, their padding.
pub fn check_packed(rows: &Packed) -> Result<(), Refusal> {
    let row = words(rows.width);
    if rows.shots as u128 * row as u128 != rows.data.len() as u128 {
        return Err(Refusal::new(8, 0, 0));
    }
    match (0..rows.shots).find(|&s| row > 0 && !padding_clear(&rows.data[s * row..(s + 1) * row], rows.width)) {
        Some(shot) => Err(Refusal::new(9, shot, 0)),
        None => Ok(()),
    }
}

/// What the marker says of a list of edges, and the row that it writes if the list passes.
pub fn mark(graph: &Graph, shot: &[u64], list: &[u32]) -> Result<(Mark, Vec<u64>), Refusal> {
    let unknown = list.iter().any(|&e| e as usize >= graph.edges());
    if unknown || (1..list.len()).any(|i| list[..i].contains(&list[i])) {
        return Err(Refusal::new(13, 0, 0));
    }
    let mut flips = vec![false; graph.detectors];
    let mut row = vec![0u64; graph.row_words()];
    for &e in list {
        let e = e as usize;
        flips[graph.edge_u[e] as usize] ^= true;
        if graph.edge_v[e] != BOUNDARY {
            flips[graph.edge_v[e] as usize] ^= true;
        }
        row.iter_mut().zip(graph.edge_observables(e)).for_each(|(word, mask)| *word ^= mask);
    }
    let wrong = (0..graph.detectors).find(|&d| flips[d] != bit(shot, d));
    Ok((wrong.map_or(Mark::Pass, |d| Mark::Differs(d as u32)), row))
}
