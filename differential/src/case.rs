//! A case: a model or a lent graph with rows and true observables, right or damaged. Kind, seed and number give the same case again.

use crate::inputs::*;
use crate::model::{words, Graph, Mechanism, Model, Packed, BOUNDARY};
use crate::pinned;
use crate::rng::{case_seed, Rng};
use crate::rules::MAX_SHOTS;
use std::fmt;

#[derive(Debug, Clone)]
pub enum Input {
    Model(Model),
    Graph(Graph),
}

#[derive(Debug, Clone)]
pub struct Case {
    pub input: Input,
    pub rows: Packed,
    pub truth: Packed,
}

#[derive(Debug, Clone, Copy, PartialEq)]
pub enum Kind {
    Pinned,
    Small,
    Tables,
    Damaged,
    Packing,
    Surface,
    Limits,
}

pub const KINDS: [(&str, Kind); 7] = [
    ("pinned", Kind::Pinned),
    ("small", Kind::Small),
    ("tables", Kind::Tables),
    ("damaged", Kind::Damaged),
    ("packing", Kind::Packing),
    ("surface", Kind::Surface),
    ("limits", Kind::Limits),
];

/// Surface codes: six distances, four kinds, three probabilities.
pub const SURFACES: u64 = 72;
pub const LIMITS: u64 = 24;

/// The case with this number; `shots` for large models.
pub fn case(kind: Kind, seed: u64, number: u64, shots: usize) -> Case {
    let rng = &mut Rng(case_seed(seed, number));
    match kind {
        Kind::Pinned => {
            let mut all = pinned::cases();
            all.swap_remove(number as usize % all.len()).1
        }
        Kind::Small => small_case(rng, number),
        Kind::Tables => tables_case(rng, number),
        Kind::Damaged => damaged_case(rng, number),
        Kind::Packing => packing_case(rng),
        Kind::Surface => surface_case(rng, number, shots),
        Kind::Limits => limits_case(rng, number, shots),
    }
}

fn with_rows(rng: &mut Rng, input: Input, shots: usize, densities: &[f64]) -> Case {
    let (d, o) = match &input {
        Input::Model(m) => (m.detectors, m.observables),
        Input::Graph(g) => (g.detectors, g.observables),
    };
    let mut rows: Vec<Vec<u64>> = Vec::new();
    let mut truth: Vec<Vec<u64>> = Vec::new();
    for _ in 0..shots {
        let density = rng.of(densities);
        rows.push(random_row(rng, d, density));
        truth.push(random_row(rng, o, 0.3));
    }
    Case { input, rows: Packed::of(&rows, d), truth: Packed::of(&truth, o) }
}

fn small_case(rng: &mut Rng, number: u64) -> Case {
    let model = match number % 5 {
        0 => small(rng, 10, 20),
        1 => small(rng, 24, 40),
        2 => coverable(rng, 7),
        3 => islands(rng),
        _ => small(rng, 6, 7),
    };
    if number % 3 == 0 {
        let (rows, truth) = sample(&model, 6, rng);
        let (rows, truth) = (Packed::of(&rows, model.detectors), Packed::of(&truth, model.observables));
        return Case { input: Input::Model(model), rows, truth };
    }
    with_rows(rng, Input::Model(model), 6, &[0.0, 0.15, 0.4, 0.7, 1.0])
}

fn tables_case(rng: &mut Rng, number: u64) -> Case {
    let graph = if number % 8 == 0 { tables(rng, 80, 200) } else { tables(rng, 9, 16) };
    with_rows(rng, Input::Graph(graph), 6, &[0.0, 0.1, 0.4, 0.8, 1.0])
}

fn surface_case(rng: &mut Rng, number: u64, shots: usize) -> Case {
    let number = number as usize % SURFACES as usize;
    let (d, hyper, p) = (DISTANCES[number / 12], HYPERS[number / 3 % 4], [0.001, 0.01, 0.05][number % 3]);
    let model = surface(d, p, hyper);
    let (rows, truth) = sample(&model, shots, rng);
    let (rows, truth) = (Packed::of(&rows, model.detectors), Packed::of(&truth, model.observables));
    Case { input: Input::Model(model), rows, truth }
}

/// Every width around a word, right or not.
fn packing_case(rng: &mut Rng) -> Case {
    let around = |rng: &mut Rng| (64 * rng.below(4) + rng.below(3)).saturating_sub(1);
    let d = around(rng);
    let o = if rng.chance(0.5) { rng.below(4) } else { around(rng).min(128) };
    let mut graph = Graph { detectors: d, observables: o, ..Graph::default() };
    for x in 0..d {
        let observables = random_row(rng, o, 0.3);
        graph.push(x, None, rng.of(&[0.0, 1.0]), &observables);
    }
    let shots = rng.below(7);
    let mut case = with_rows(rng, Input::Graph(graph), shots, &[0.0, 0.1, 0.9]);
    for _ in 0..rng.below(3) {
        if rng.chance(0.6) {
            damage_rows(rng, &mut case.rows);
        } else {
            damage_rows(rng, &mut case.truth);
        }
    }
    case
}

fn damage_rows(rng: &mut Rng, rows: &mut Packed) {
    match rng.below(9) {
        0 => rows.data.push(rng.of(&[0, 1, u64::MAX])),
        1 => _ = rows.data.pop(),
        2 => rows.shots += 1,
        3 => rows.shots = rows.shots.saturating_sub(1),
        4 => rows.width = rng.of(&[0, 1, 63, 64, 65, 128, 129, usize::MAX, usize::MAX - 63, usize::MAX - 64]),
        5 => rows.width = rows.width.saturating_add(1),
        6 => rows.width = rows.width.saturating_sub(1),
        7 if rows.width < 1 << 12 => {
            // Another width of the right length, every row of it zero.
            rows.width = (rows.width + 64).saturating_sub(rng.below(129));
            rows.data = vec![0; rows.shots * words(rows.width)];
        }
        _ => {
            // Bits past the width, in one shot or more.
            let row = words(rows.width);
            if rows.width % 64 != 0 && rows.data.len() == rows.shots * row {
                for s in 0..rows.shots {
                    if rng.chance(0.4) {
                        rows.data[s * row + row - 1] |= 1 << (rows.width % 64 + rng.below(64 - rows.width % 64));
                    }
                }
            }
        }
    }
}

fn damaged_case(rng: &mut Rng, number: u64) -> Case {
    let mut case = if number % 2 == 0 { small_case(rng, number / 2) } else { tables_case(rng, number / 2 * 2 + 1) };
    match &mut case.input {
        Input::Model(m) => damage_model(rng, m),
        Input::Graph(g) => damage_graph(rng, g),
    }
    if rng.chance(0.3) {
        damage_rows(rng, &mut case.rows);
    }
    if rng.chance(0.3) {
        damage_rows(rng, &mut case.truth);
    }
    case
}

fn damage_list(rng: &mut Rng, list: &mut Vec<usize>, below: usize) {
    match rng.below(5) {
        0 => list.reverse(),
        1 if !list.is_empty() => list.insert(0, list[0]),
        2 => list.push(below),
        3 => list.push(u32::MAX as usize),
        _ => *list = (0..17).collect(),
    }
}

fn damage_mechanism(rng: &mut Rng, m: &mut Mechanism, d: usize, o: usize) {
    match rng.below(8) {
        0..=2 => m.probability = rng.of(&[f64::NAN, -1e-300, -5e-324, 1.0, 1.5, f64::INFINITY, f64::NEG_INFINITY, -0.0, 0.0]),
        3 => damage_list(rng, &mut m.detectors, d),
        4 => damage_list(rng, &mut m.observables, o),
        5 => m.components = vec![(vec![], vec![]); 15 + rng.below(4)],
        6 if !m.components.is_empty() => {
            let at = rng.below(m.components.len());
            damage_list(rng, &mut m.components[at].0, d);
        }
        _ => {
            // Over two detectors, perhaps of probability zero.
            m.detectors = subset(rng, d, 3);
            m.components.clear();
            m.probability = rng.of(&[0.0, -0.0, 0.25]);
        }
    }
}

fn damage_model(rng: &mut Rng, model: &mut Model) {
    for _ in 0..1 + rng.below(2) {
        let (d, o) = (model.detectors, model.observables);
        if !model.mechanisms.is_empty() {
            let at = rng.below(model.mechanisms.len());
            damage_mechanism(rng, &mut model.mechanisms[at], d, o);
        }
    }
}

fn damage_graph(rng: &mut Rng, graph: &mut Graph) {
    for _ in 0..1 + rng.below(2) {
        if graph.edges() == 0 {
            return;
        }
        let e = rng.below(graph.edges());
        match rng.below(8) {
            0 => graph.edge_u[e] = rng.of(&[graph.detectors as u32, BOUNDARY]),
            1 => graph.edge_v[e] = graph.detectors as u32,
            2 => graph.edge_v[e] = graph.edge_u[e],
            3 => {
                let (u, v) = (graph.edge_u[e], graph.edge_v[e]);
                (graph.edge_u[e], graph.edge_v[e]) = (v, u);
            }
            4 if graph.observables % 64 != 0 => {
                let last = (e + 1) * graph.row_words() - 1;
                graph.edge_obs[last] |= 1 << (graph.observables % 64 + rng.below(64 - graph.observables % 64));
            }
            _ => {
                let past = f64::from_bits(1024f64.to_bits() + 1);
                graph.edge_weight[e] = rng.of(&[f64::NAN, -1e-300, -5e-324, past, 1e300, f64::NEG_INFINITY, -0.0, 1024.0]);
            }
        }
    }
}

/// Every place taken but two, then three new components: code 1 where the original goes on.
fn one_place_short(rng: &mut Rng) -> Model {
    let mut model = limit(rng, 3, 4);
    let components = (0..3).map(|k| (vec![k, k + 1000], vec![127])).collect();
    model.mechanisms.truncate(16382);
    model.mechanisms.push(Mechanism { probability: 0.1, detectors: vec![0, 1, 2, 3], observables: vec![], components });
    model
}

/// Lists and components of sixteen.
fn sixteens(rng: &mut Rng) -> Model {
    let mut model = Model { detectors: 64, observables: 128, mechanisms: Vec::new() };
    for _ in 0..200 {
        let (detectors, observables) = (subset(rng, 64, 16), subset(rng, 128, 16));
        let components = detectors.iter().map(|&x| (vec![x], subset(rng, 128, 16))).collect();
        model.mechanisms.push(Mechanism { probability: rng.unit() * 0.3, detectors, observables, components });
    }
    model
}

/// One detector, observable or mechanism too many.
fn past_a_limit(rng: &mut Rng) -> Model {
    let mut model = limit(rng, 3, 4);
    match rng.below(3) {
        0 => model.detectors += 1,
        1 => model.observables += 1,
        _ => model.mechanisms.push(model.mechanisms[0].clone()),
    }
    model
}

/// So many shots of no detectors.
fn blank_shots(shots: usize) -> Case {
    let rows = Packed { data: vec![], shots, width: 0 };
    Case { input: Input::Graph(Graph::default()), truth: rows.clone(), rows }
}

/// Models and batches at and past each limit.
fn limits_case(rng: &mut Rng, number: u64, shots: usize) -> Case {
    let (model, shots, densities) = match number as usize % LIMITS as usize {
        0 => {
            let graph = Graph { detectors: 4096, observables: 128, ..Graph::default() };
            return with_rows(rng, Input::Graph(graph), 3, &[0.0, 0.0, 0.001]);
        }
        1 => return blank_shots(MAX_SHOTS),
        2 => return blank_shots(MAX_SHOTS + 1),
        3 => (one_place_short(rng), 1, [0.001; 3]),
        4 => (sixteens(rng), 4, [0.1, 0.5, 0.9]),
        5 => (past_a_limit(rng), 0, [0.0; 3]),
        rest => {
            let (pool, boundaries) = ([0, 3, 6, 4, 2, 5][rest % 6], [40, 1, 0][rest / 6 - 1]);
            (limit(rng, pool, boundaries), shots.min(4), [0.0005, 0.003, 0.02])
        }
    };
    with_rows(rng, Input::Model(model), shots, &densities)
}

impl fmt::Display for Case {
    fn fmt(&self, f: &mut fmt::Formatter<'_>) -> fmt::Result {
        match &self.input {
            Input::Model(m) => write!(f, "{m}")?,
            Input::Graph(g) => write!(f, "{g}")?,
        }
        writeln!(f, "  rows: {}", self.rows)?;
        writeln!(f, "  true observables: {}", self.truth)
    }
}
