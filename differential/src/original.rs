//! The original behind the same kinds of answers. It tells where it refuses only by a text, so mechanisms are found by asking it again.

use crate::model::{Graph, Mechanism, Model, ModelSize, Packed, Refusal};
use published::error::PrismError;
use published::qec::decoder::{probe, UnionFindDecoder};
use published::qec::DetectorErrorModel;
use published::sim::compiled::PackedShots;

pub fn model(m: &Model) -> DetectorErrorModel {
    let parts = m.mechanisms.iter();
    published::qec::model(
        parts.map(|x| (x.probability, x.detectors.clone(), x.observables.clone(), x.components.clone())).collect(),
        m.detectors,
        m.observables,
    )
}

fn read(m: &DetectorErrorModel) -> Model {
    let read = |x: &published::qec::ErrorMechanism| Mechanism {
        probability: x.probability(),
        detectors: x.detectors().to_vec(),
        observables: x.observables().to_vec(),
        components: x.suggested_decomposition().to_vec(),
    };
    Model { detectors: m.num_detectors(), observables: m.num_observables(), mechanisms: m.mechanisms().iter().map(read).collect() }
}

/// The least number in `0..n` at which `fails`; it fails at the last, and once it fails it fails for all that are greater.
fn first_failing(n: usize, fails: impl Fn(usize) -> bool) -> usize {
    let (mut low, mut high) = (0, n - 1);
    while low < high {
        let middle = (low + high) / 2;
        if fails(middle) {
            high = middle;
        } else {
            low = middle + 1;
        }
    }
    low
}

/// The model without those mechanisms of over two detectors that come after this one.
pub fn up_to(m: &Model, last: usize) -> Model {
    let kept = m.mechanisms.iter().enumerate().filter(|(i, x)| x.detectors.len() <= 2 || *i <= last);
    Model { mechanisms: kept.map(|(_, x)| x.clone()).collect(), ..*m }
}

pub fn decompose(m: &Model) -> Result<Model, Refusal> {
    match model(m).decompose_graphlike() {
        Ok(decomposed) => Ok(read(&decomposed)),
        Err(_) => {
            let refused = |last| model(&up_to(m, last)).decompose_graphlike().is_err();
            Err(Refusal::new(6, first_failing(m.mechanisms.len(), refused), 0))
        }
    }
}

pub fn compile(m: &Model) -> Result<UnionFindDecoder, Refusal> {
    let prefix = |n: usize| UnionFindDecoder::from_model(&model(&Model { mechanisms: m.mechanisms[..n].to_vec(), ..*m }));
    UnionFindDecoder::from_model(&model(m)).map_err(|e| {
        let code = if e.to_string().contains("outside [0, 1)") { 4 } else { 7 };
        Refusal::new(code, first_failing(m.mechanisms.len(), |n| prefix(n + 1).is_err()), 0)
    })
}

pub fn graph(decoder: &UnionFindDecoder) -> Graph {
    let t = probe::tables(decoder);
    Graph { detectors: t.num_detectors, observables: t.num_observables, edge_u: t.u, edge_v: t.v, edge_weight: t.weight, edge_obs: t.obs }
}

/// A decoder over lent tables, which the original alone never makes: parallel edges and any weight.
pub fn decoder(g: &Graph) -> UnionFindDecoder {
    probe::from_tables(&probe::Tables {
        num_detectors: g.detectors,
        num_observables: g.observables,
        u: g.edge_u.clone(),
        v: g.edge_v.clone(),
        weight: g.edge_weight.clone(),
        obs: g.edge_obs.clone(),
    })
}

/// A refusal from its text.
fn refusal(error: &PrismError) -> Refusal {
    let text = error.to_string();
    let number = |after: &str| -> Option<usize> {
        let rest = &text[text.find(after)? + after.len()..];
        rest[..rest.find(|c: char| !c.is_ascii_digit()).unwrap_or(rest.len())].parse().ok()
    };
    if let (Some(shot), Some(detector)) = (number("parameter: shot "), number("component containing D")) {
        Refusal::new(11, shot, detector)
    } else if let Some(shot) = number("padding bits are set in shot ") {
        Refusal::new(9, shot, 0)
    } else if text.contains("packed raw length") || text.contains("overflows usize") {
        Refusal::new(8, 0, 0)
    } else if text.contains("the model has") {
        Refusal::new(10, 0, 0)
    } else if text.contains("observable records hold") {
        Refusal::new(12, 0, 0)
    } else {
        panic!("a text of the original that is not known: {text}")
    }
}

pub fn pack(rows: &Packed) -> Result<PackedShots, Refusal> {
    PackedShots::try_from_shot_major(rows.data.clone(), rows.shots, rows.width).map_err(|e| refusal(&e))
}

/// The rows of a batch; where it is small, both layouts of the original must give them.
pub fn batch(decoder: &UnionFindDecoder, rows: &Packed) -> Result<Vec<u64>, Refusal> {
    let packed = pack(rows)?;
    let answer = decoder.decode_packed(&packed).map(|x| x.into_data()).map_err(|e| refusal(&e));
    if rows.shots < 64 && rows.width < 512 {
        let other = decoder.decode_packed(&packed.to_meas_major()).map(|x| x.into_data()).map_err(|e| refusal(&e));
        assert_eq!(answer, other, "the original's two layouts");
    }
    answer
}

pub fn rate(decoder: &UnionFindDecoder, rows: &Packed, truth: &Packed) -> Result<f64, Refusal> {
    let (rows, truth) = (pack(rows)?, pack(truth)?);
    decoder.logical_error_rate(&rows, &truth).map_err(|e| refusal(&e))
}

/// Decomposition into so many places: the mechanism that finds none left is refused with 1, so an earlier one's 6 comes before it.
pub fn decompose_within(m: &Model, places: ModelSize) -> Result<Model, Refusal> {
    let over = |last: usize| {
        let size = model(&up_to(m, last)).decompose_graphlike().map(|x| read(&x).size()).unwrap_or_default();
        size.mechanisms > places.mechanisms || size.components > places.components || size.entries > places.entries
    };
    let answer = decompose(m);
    let last = match &answer {
        Ok(_) => m.mechanisms.len(),
        Err(refusal) if refusal.first > 0 => refusal.first - 1,
        Err(_) => return answer,
    };
    if over(last) {
        Err(Refusal::new(1, 0, 0))
    } else {
        answer
    }
}
