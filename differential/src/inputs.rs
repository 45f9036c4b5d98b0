//! Models, graphs and rows: rotated surface codes, small adversarial models, lent tables, models at the limits.

use crate::model::{words, Graph, Mechanism, Model, Symptom};
use crate::rng::Rng;

#[derive(Clone, Copy, PartialEq, Debug)]
pub enum Hyper {
    /// X and Z data errors and measurement errors alone.
    Graphlike,
    /// Y errors without suggestions: covers are searched.
    Bare,
    /// Y errors with suggested components.
    Suggested,
    /// Y errors with and without suggestions in turn, and XX on qubits two apart in a row (3 to 4 detectors).
    Mixed,
}

pub const HYPERS: [Hyper; 4] = [Hyper::Graphlike, Hyper::Bare, Hyper::Suggested, Hyper::Mixed];
pub const DISTANCES: [usize; 6] = [3, 5, 7, 9, 11, 13];

/// The stabilizers of the rotated layout: whether it is of Z kind, and its data qubits.
fn plaquettes(d: usize) -> Vec<(bool, Vec<usize>)> {
    let mut out = Vec::new();
    for (i, j) in (0..=d).flat_map(|i| (0..=d).map(move |j| (i, j))) {
        let z = (i + j) % 2 == 0;
        let inner = |x: usize| x > 0 && x < d;
        let kept = if inner(i) { inner(j) || z } else { inner(j) && !z };
        if !kept {
            continue;
        }
        let corners = [(i.wrapping_sub(1), j.wrapping_sub(1)), (i.wrapping_sub(1), j), (i, j.wrapping_sub(1)), (i, j)];
        out.push((z, corners.into_iter().filter(|&(r, c)| r < d && c < d).map(|(r, c)| r * d + c).collect()));
    }
    out
}

fn mechanism(probability: f64, mut detectors: Vec<usize>, observables: Vec<usize>, components: Vec<Symptom>) -> Mechanism {
    detectors.sort();
    Mechanism { probability, detectors, observables, components }
}

/// Entries that occur an odd number of times.
fn symmetric(lists: &[&[usize]]) -> Vec<usize> {
    let mut out: Vec<usize> = Vec::new();
    for &x in lists.iter().copied().flatten() {
        match out.iter().position(|&y| y == x) {
            Some(i) => _ = out.remove(i),
            None => out.push(x),
        }
    }
    out.sort();
    out
}

/// The mechanisms of one qubit in one round. `x` and `z` are the symptoms of its X and Z errors, `two_apart` the detectors of an X error two
/// columns on.
fn qubit_errors(p: f64, hyper: Hyper, suggest: bool, x: &Symptom, z: &Symptom, two_apart: Option<Vec<usize>>) -> Vec<Mechanism> {
    let mut out = vec![mechanism(p, x.0.clone(), x.1.clone(), vec![])];
    if hyper != Hyper::Graphlike {
        let components = if suggest { vec![x.clone(), z.clone()] } else { vec![] };
        out.push(mechanism(p, [&x.0[..], &z.0].concat(), [&x.1[..], &z.1].concat(), components));
    }
    out.push(mechanism(p, z.0.clone(), z.1.clone(), vec![]));
    if let Some(other) = two_apart {
        let both = symmetric(&[&x.0, &other]);
        if both.len() > 2 {
            out.push(mechanism(p / 10.0, both, vec![], vec![]));
        }
    }
    out
}

/// A memory experiment of distance d: d noisy rounds and a perfect one. Observable 0 is flipped by X errors in row 0, observable 1 by Z errors
/// in column 0.
pub fn surface(d: usize, p: f64, hyper: Hyper) -> Model {
    let stabilizers = plaquettes(d);
    let s = stabilizers.len();
    assert_eq!(s, d * d - 1);
    let side = |qubit: usize, z: bool, t: usize| -> Vec<usize> {
        (0..s).filter(|&k| stabilizers[k].0 == z && stabilizers[k].1.contains(&qubit)).map(|k| t * s + k).collect()
    };
    let each = if hyper == Hyper::Graphlike { p * 2.0 / 3.0 } else { p / 3.0 };
    let mut mechanisms = Vec::new();
    for t in 0..d {
        for qubit in 0..d * d {
            let x = (side(qubit, true, t), if qubit / d == 0 { vec![0] } else { vec![] });
            let z = (side(qubit, false, t), if qubit % d == 0 { vec![1] } else { vec![] });
            let suggest = hyper == Hyper::Suggested || (hyper == Hyper::Mixed && (t * d * d + qubit) % 2 == 0);
            let two_apart = (hyper == Hyper::Mixed && qubit % d + 2 < d).then(|| side(qubit + 2, true, t));
            mechanisms.extend(qubit_errors(each, hyper, suggest, &x, &z, two_apart));
        }
        mechanisms.extend((0..s).map(|k| mechanism(p, vec![t * s + k, (t + 1) * s + k], vec![], vec![])));
    }
    Model { detectors: s * (d + 1), observables: 2, mechanisms }
}

/// Shots of a model: rows of detectors and of true observables.
pub fn sample(model: &Model, shots: usize, rng: &mut Rng) -> (Vec<Vec<u64>>, Vec<Vec<u64>>) {
    let mut rows = vec![vec![0u64; words(model.detectors)]; shots];
    let mut truth = vec![vec![0u64; words(model.observables)]; shots];
    for m in model.mechanisms.iter().filter(|m| m.probability > 0.0) {
        let log = (1.0 - m.probability).ln();
        let mut at = 0;
        while at < shots {
            // Shots skipped until the next in which the mechanism occurs.
            let skip = ((1.0 - rng.unit()).ln() / log).floor();
            if !(skip < (shots - at) as f64) {
                break;
            }
            at += skip as usize;
            m.detectors.iter().for_each(|&x| rows[at][x / 64] ^= 1 << (x % 64));
            m.observables.iter().for_each(|&x| truth[at][x / 64] ^= 1 << (x % 64));
            at += 1;
        }
    }
    (rows, truth)
}

pub fn random_row(rng: &mut Rng, width: usize, density: f64) -> Vec<u64> {
    let mut row = vec![0u64; words(width)];
    for x in 0..width {
        if rng.chance(density) {
            row[x / 64] |= 1 << (x % 64);
        }
    }
    row
}

pub fn subset(rng: &mut Rng, n: usize, size: usize) -> Vec<usize> {
    let mut out: Vec<usize> = Vec::new();
    while out.len() < size.min(n) {
        let x = rng.below(n);
        if !out.contains(&x) {
            out.push(x);
        }
    }
    out.sort();
    out
}

pub const POOLS: usize = 8;

/// A probability of one of several pools, so that ties, zeros and infinities are frequent.
pub fn probability(rng: &mut Rng, pool: usize) -> f64 {
    match pool {
        0 => rng.of(&[0.25, 0.25, 0.1, 0.5]),
        1 => rng.of(&[0.0, -0.0, 0.5, 0.25, 1e-310, 5e-324, 0.9, 1.0 - f64::EPSILON / 2.0]),
        2 => rng.unit(),
        3 => rng.unit() * 0.01,
        4 => 0.125,
        // Any exponent below 1.
        5 => f64::from_bits(rng.below(0x3ff0000000000000) as u64),
        // Odds of 4, 16, 64 and 255: weights near 1 : 2 : 3 : 4.
        6 => rng.of(&[0.2, 0.05882352941176471, 0.015384615384615385, 0.00390625]),
        _ => rng.of(&[1e-310, 1e-320, 0.5, 0.1]),
    }
}

/// Pieces of a mechanism's detectors, adding up or not.
fn pieces(rng: &mut Rng, detectors: &[usize], d: usize, o: usize) -> Vec<Symptom> {
    let mut rest = detectors.to_vec();
    let mut out: Vec<Symptom> = Vec::new();
    while !rest.is_empty() && out.len() < 14 {
        let take = (1 + rng.below(2)).min(rest.len());
        let k = rng.below(2);
        out.push((rest.drain(..take).collect(), subset(rng, o, k)));
    }
    if rng.chance(0.1) {
        out.push((subset(rng, d, 3), vec![]));
    }
    if rng.chance(0.1) {
        out.push((vec![], subset(rng, o, 1)));
    }
    if rng.chance(0.2) && !out.is_empty() {
        let again = rng.of(&out);
        out.truncate(15);
        out.push(again);
    }
    if rng.chance(0.2) {
        out.pop();
    }
    out
}

/// An earlier mechanism again, perhaps with another probability or other observables.
fn duplicate(rng: &mut Rng, mechanisms: &[Mechanism], pool: usize, o: usize) -> Mechanism {
    let mut m = rng.of(mechanisms);
    if rng.chance(0.5) {
        m.probability = probability(rng, pool);
    }
    if rng.chance(0.3) {
        let k = rng.below(3);
        m.observables = subset(rng, o, k);
    }
    m
}

/// A small model with duplicates, zeros, islands without boundary, ties, infinities, suggestions and covers.
pub fn small(rng: &mut Rng, max_detectors: usize, max_mechanisms: usize) -> Model {
    let d = rng.below(max_detectors + 1);
    let o = match rng.below(8) {
        0 => 0,
        1 => 65 + rng.below(64),
        _ => 1 + rng.below(4),
    };
    let (count, pool, boundary, hyper) = (rng.below(max_mechanisms + 1), rng.below(POOLS), rng.below(4), rng.below(3));
    let mut mechanisms: Vec<Mechanism> = Vec::new();
    for _ in 0..count {
        if !mechanisms.is_empty() && rng.chance(0.12) {
            mechanisms.push(duplicate(rng, &mechanisms, pool, o));
            continue;
        }
        let size = match rng.below(10) {
            0 => 0,
            1 | 2 if boundary > 0 => 1,
            3 if boundary > 1 => 1,
            4 if hyper > 0 => 3 + rng.below(3),
            5 if hyper > 1 => 3 + rng.below(2),
            _ => 2,
        };
        if size > d || (size == 1 && boundary == 0) {
            continue;
        }
        let near = size == 2 && rng.chance(0.5);
        let first = rng.below(d.max(2) - 1);
        let detectors = if near { vec![first, first + 1] } else { subset(rng, d, size) };
        let k = rng.below(if o > 4 { 5 } else { 3 });
        let observables = subset(rng, o, k);
        let suggested = (size > 2 && rng.chance(0.5)) || rng.chance(0.05);
        let components = if suggested { pieces(rng, &detectors, d, o) } else { vec![] };
        mechanisms.push(Mechanism { probability: probability(rng, pool), detectors, observables, components });
    }
    Model { detectors: d, observables: o, mechanisms }
}

/// A small model in which many triples have covers, some of them several.
pub fn coverable(rng: &mut Rng, max_detectors: usize) -> Model {
    let d = 3 + rng.below(max_detectors - 2);
    let o = 1 + rng.below(3);
    let zeros = rng.chance(0.1);
    let mut mechanisms = Vec::new();
    for _ in 0..rng.below(24) {
        let size = rng.of(&[1, 1, 2, 2, 2, 0, 3, 4]).min(d);
        let k = rng.below(2);
        let (detectors, observables) = (subset(rng, d, size), subset(rng, o, k));
        let pool = rng.of(&[0, 2, 3, 1]);
        let probability = if zeros { rng.of(&[0.0, -0.0]) } else { probability(rng, pool) };
        let suggested = size > 2 && rng.chance(0.35);
        let halves = || vec![(detectors[..1].to_vec(), vec![]), (detectors[1..3].to_vec(), observables.clone())];
        let components = if suggested { halves() } else { vec![] };
        mechanisms.push(Mechanism { probability, detectors, observables, components });
    }
    Model { detectors: d, observables: o, mechanisms }
}

/// Islands without boundary and ties everywhere: the order of the active clusters shows in the detector that Stuck names.
pub fn islands(rng: &mut Rng) -> Model {
    let d = 5 + rng.below(8);
    let count = 2 + rng.below(3);
    let home: Vec<usize> = (0..d).map(|_| rng.below(count)).collect();
    let pool = [0.5, 0.5, 0.25, 0.1][..2 + rng.below(3)].to_vec();
    let mut mechanisms = Vec::new();
    let pair = |rng: &mut Rng, a: usize, b: usize| mechanism(rng.of(&pool), vec![a, b], vec![], vec![]);
    for island in 0..count {
        let mut members: Vec<usize> = (0..d).filter(|&x| home[x] == island).collect();
        shuffle(rng, &mut members);
        for j in 1..members.len() {
            let to = if rng.chance(0.6) { j - 1 } else { rng.below(j) };
            mechanisms.push(pair(rng, members[j], members[to]));
        }
        if members.len() > 2 && rng.chance(0.3) {
            mechanisms.push(pair(rng, members[0], members[2]));
        }
        if !members.is_empty() && rng.chance(0.1) {
            mechanisms.push(mechanism(0.25, vec![members[0]], vec![], vec![]));
        }
    }
    shuffle(rng, &mut mechanisms);
    Model { detectors: d, observables: 0, mechanisms }
}

fn shuffle<T>(rng: &mut Rng, list: &mut [T]) {
    for j in (1..list.len()).rev() {
        list.swap(j, rng.below(j + 1));
    }
}

/// An accepted weight of one of several pools.
fn weight(rng: &mut Rng, pool: usize) -> f64 {
    match pool {
        0 => rng.of(&[0.0, 1.0, 2.0, 3.0, 1024.0, f64::INFINITY]),
        1 => rng.unit() * 1024.0,
        // Any bits up to 1,024.
        2 => f64::from_bits(rng.below(0x4090000000000001) as u64),
        // Around the tolerance.
        3 => 1.0 + rng.of(&[0.0, 1e-9, 2e-9, 0.5e-9, 1.5e-9, 1e-10, 4e-9]),
        _ => rng.of(&[5e-324, 1e-310, 1e-9, 2e-9, 0.0, -0.0]),
    }
}

/// A lent graph that compiling need not give: parallel edges, any accepted weight.
pub fn tables(rng: &mut Rng, max_detectors: usize, max_edges: usize) -> Graph {
    let d = 1 + rng.below(max_detectors);
    let o = if rng.chance(0.1) { 60 + rng.below(69) } else { rng.below(4) };
    let (pool, boundary) = (rng.below(5), rng.of(&[0.0, 0.1, 0.3]));
    let mut graph = Graph { detectors: d, observables: o, ..Graph::default() };
    for _ in 0..rng.below(max_edges + 1) {
        let (a, b) = (rng.below(d), rng.below(d));
        let far = if a == b || rng.chance(boundary) { None } else { Some(a.max(b)) };
        if far.is_none() && boundary == 0.0 {
            continue;
        }
        let near = if far.is_some() { a.min(b) } else { a };
        let (w, observables) = (weight(rng, pool), random_row(rng, o, 0.3));
        graph.push(near, far, w, &observables);
    }
    graph
}

/// 4,096 detectors, 16,384 mechanisms, 128 observables.
pub fn limit(rng: &mut Rng, pool: usize, boundaries: usize) -> Model {
    let d = 4096;
    let mut mechanisms = Vec::new();
    for i in 0..16384 {
        let detectors = if i < boundaries {
            vec![rng.below(d)]
        } else if i < boundaries + d - 1 {
            vec![i - boundaries, i - boundaries + 1]
        } else {
            let a = rng.below(d - 1);
            vec![a, (a + 1 + rng.below(40)).min(d - 1)]
        };
        let k = rng.below(3);
        mechanisms.push(mechanism(probability(rng, pool), detectors, subset(rng, 128, k), vec![]));
    }
    Model { detectors: d, observables: 128, mechanisms }
}

/// One lit detector at the end of a chain, distinct weights, one boundary edge far off that is last to saturate: nearly a round an edge.
pub fn worst(rng: &mut Rng, detectors: usize, edges: usize) -> (Graph, Vec<u64>) {
    let mut graph = Graph { detectors, ..Graph::default() };
    for i in 0..edges - 1 {
        let a = if i < detectors - 1 { i } else { rng.below(detectors - 1) };
        let b = if i < detectors - 1 { i + 1 } else { a + 1 + rng.below(detectors - 1 - a) };
        graph.push(a, Some(b), rng.unit() * 1000.0, &[]);
    }
    graph.push(detectors - 1, None, f64::INFINITY, &[]);
    let mut row = vec![0u64; words(detectors)];
    row[0] = 1;
    (graph, row)
}
