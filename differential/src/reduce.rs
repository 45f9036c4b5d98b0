//! A failing case made smaller for as long as it fails.

use crate::case::{Case, Input};
use crate::model::{bit, words, Graph, Model, Packed, BOUNDARY};
use std::time::{Duration, Instant};

/// The smallest case that greedy steps reach in this time.
pub fn reduce(case: Case, limit: Duration, fails: &mut dyn FnMut(&Case) -> bool) -> Case {
    let start = Instant::now();
    let mut best = case;
    loop {
        let smaller = candidates(&best).find(|smaller| start.elapsed() < limit && fails(smaller));
        match smaller {
            Some(smaller) => best = smaller,
            None => return best,
        }
    }
}

/// Ranges to leave out of `n` things: halves first, single ones last.
fn ranges(n: usize) -> Vec<(usize, usize)> {
    let mut out = Vec::new();
    let mut size = n.div_ceil(2);
    while size > 0 {
        out.extend((0..n).step_by(size).map(|at| (at, (at + size).min(n))));
        size /= 2;
    }
    out
}

fn candidates(case: &Case) -> Box<dyn Iterator<Item = Case> + '_> {
    let shots = ranges(if well_formed(&case.rows) && well_formed(&case.truth) { case.rows.shots.min(case.truth.shots) } else { 0 });
    let fewer_shots = shots.into_iter().map(move |(a, b)| {
        let (rows, truth) = (without(&case.rows, a, b), without(&case.truth, a, b));
        Case { rows, truth, ..case.clone() }
    });
    let inputs: Box<dyn Iterator<Item = Case>> = match &case.input {
        Input::Model(m) => Box::new(smaller_models(m).map(move |m| Case { input: Input::Model(m), ..case.clone() })),
        Input::Graph(g) => Box::new(smaller_graphs(g).map(move |g| Case { input: Input::Graph(g), ..case.clone() })),
    };
    Box::new(fewer_shots.chain(inputs).chain(narrower(case)).chain(fewer_bits(case)))
}

fn well_formed(rows: &Packed) -> bool {
    rows.data.len() as u128 == rows.shots as u128 * words(rows.width) as u128
}

fn without(rows: &Packed, from: usize, to: usize) -> Packed {
    let row = words(rows.width);
    let data = [&rows.data[..from * row], &rows.data[to * row..]].concat();
    Packed { data, shots: rows.shots - (to - from), width: rows.width }
}

fn smaller_models(model: &Model) -> impl Iterator<Item = Model> + '_ {
    let n = model.mechanisms.len();
    let fewer =
        ranges(n).into_iter().map(move |(a, b)| Model { mechanisms: [&model.mechanisms[..a], &model.mechanisms[b..]].concat(), ..*model });
    let simpler = (0..n).flat_map(move |i| {
        let mut out = Vec::new();
        let mut with = |change: &dyn Fn(&mut crate::model::Mechanism)| {
            let mut smaller = model.clone();
            change(&mut smaller.mechanisms[i]);
            out.push(smaller);
        };
        let m = &model.mechanisms[i];
        (0..m.components.len()).for_each(|c| with(&|m| _ = m.components.remove(c)));
        (0..m.observables.len()).for_each(|o| with(&|m| _ = m.observables.remove(o)));
        if m.detectors.len() > 2 {
            (0..m.detectors.len()).for_each(|d| with(&|m| _ = m.detectors.remove(d)));
        }
        if ![0.25, 0.5].contains(&m.probability) {
            with(&|m| m.probability = 0.25);
            with(&|m| m.probability = 0.5);
        }
        out
    });
    fewer.chain(simpler)
}

fn smaller_graphs(graph: &Graph) -> impl Iterator<Item = Graph> + '_ {
    let n = graph.edges();
    let fewer = ranges(n).into_iter().map(move |(a, b)| {
        let mut smaller = graph.clone();
        (a..b).rev().for_each(|e| smaller.remove(e));
        smaller
    });
    let simpler = (0..n).flat_map(move |e| {
        let mut out = Vec::new();
        let row = graph.row_words();
        if graph.edge_observables(e).iter().any(|&w| w != 0) {
            let mut smaller = graph.clone();
            smaller.edge_obs[e * row..(e + 1) * row].fill(0);
            out.push(smaller);
        }
        if ![0.0, 1.0].contains(&graph.edge_weight[e]) {
            for weight in [0.0, 1.0] {
                let mut smaller = graph.clone();
                smaller.edge_weight[e] = weight;
                out.push(smaller);
            }
        }
        out
    });
    fewer.chain(simpler)
}

/// Rows with one column less.
fn without_column(rows: &Packed, column: usize) -> Packed {
    let width = rows.width - 1;
    let mut data = Vec::new();
    for shot in rows.data.chunks(words(rows.width)) {
        let mut row = vec![0u64; words(width)];
        for x in (0..width).filter(|&x| bit(shot, if x < column { x } else { x + 1 })) {
            row[x / 64] |= 1 << (x % 64);
        }
        data.extend(row);
    }
    Packed { data, shots: rows.shots, width }
}

/// The case without one detector and without all that names it.
fn without_detector(case: &Case, gone: usize) -> Case {
    let mut smaller = case.clone();
    match &mut smaller.input {
        Input::Model(m) => {
            m.detectors -= 1;
            m.mechanisms.retain(|m| !m.detectors.contains(&gone) && m.components.iter().all(|c| !c.0.contains(&gone)));
            let lower = |list: &mut Vec<usize>| list.iter_mut().filter(|x| **x > gone).for_each(|x| *x -= 1);
            for m in &mut m.mechanisms {
                lower(&mut m.detectors);
                m.components.iter_mut().for_each(|c| lower(&mut c.0));
            }
        }
        Input::Graph(g) => {
            g.detectors -= 1;
            let gone = gone as u32;
            (0..g.edges())
                .rev()
                .filter(|&e| g.edge_u[e] == gone || g.edge_v[e] == gone)
                .collect::<Vec<_>>()
                .into_iter()
                .for_each(|e| g.remove(e));
            g.edge_u.iter_mut().filter(|u| **u > gone).for_each(|u| *u -= 1);
            g.edge_v.iter_mut().filter(|v| **v > gone && **v != BOUNDARY).for_each(|v| *v -= 1);
        }
    }
    smaller.rows = without_column(&case.rows, gone);
    smaller
}

/// The case with one detector less, or without observables.
fn narrower(case: &Case) -> impl Iterator<Item = Case> + '_ {
    let (Input::Graph(Graph { detectors, observables, .. }) | Input::Model(Model { detectors, observables, .. })) = &case.input;
    let detectors = if case.rows.width == *detectors && well_formed(&case.rows) { *detectors } else { 0 };
    let blank = *observables > 0 && case.truth.width == *observables && well_formed(&case.truth);
    (0..detectors).rev().map(move |gone| without_detector(case, gone)).chain(blank.then(|| without_observables(case)))
}

fn without_observables(case: &Case) -> Case {
    let mut smaller = case.clone();
    match &mut smaller.input {
        Input::Model(m) => {
            m.observables = 0;
            for m in &mut m.mechanisms {
                m.observables.clear();
                m.components.iter_mut().for_each(|c| c.1.clear());
            }
        }
        Input::Graph(g) => {
            g.observables = 0;
            g.edge_obs.clear();
        }
    }
    smaller.truth = Packed { data: vec![], shots: case.truth.shots, width: 0 };
    smaller
}

/// Set bits of the rows cleared, one or two at a time, and of the true observables.
fn fewer_bits(case: &Case) -> impl Iterator<Item = Case> + '_ {
    let set = |data: &[u64]| -> Vec<(usize, u32)> {
        data.iter().enumerate().flat_map(|(w, &x)| (0..64).filter(move |b| x >> b & 1 == 1).map(move |b| (w, b))).take(500).collect()
    };
    let (lit, truth) = (set(&case.rows.data), set(&case.truth.data));
    let few = &lit[..lit.len().min(12)];
    let pairs: Vec<Vec<(usize, u32)>> = few.iter().flat_map(|a| few.iter().map(move |b| vec![*a, *b])).filter(|p| p[0] < p[1]).collect();
    let rows = lit.into_iter().map(|bit| vec![bit]).chain(pairs).map(move |bits| {
        let mut smaller = case.clone();
        bits.into_iter().for_each(|(w, b)| smaller.rows.data[w] &= !(1 << b));
        smaller
    });
    let truth = truth.into_iter().map(move |(w, b)| {
        let mut smaller = case.clone();
        smaller.truth.data[w] &= !(1 << b);
        smaller
    });
    rows.chain(truth)
}
