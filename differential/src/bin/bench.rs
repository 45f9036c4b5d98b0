//! bench                                   one table: the original and this library on the same inputs, one thread, one run
//! bench PART                              a part of it: shots, single, models, listing, worst
//! bench one SIDE DISTANCE P SHOTS TIMES   one configuration of one side (`original` or `ours`), for callgrind
//!
//! Times are the best of several, the two sides in turn. The original allocates its scratch and its rows in each call and takes rows whose
//! padding was checked before; ours takes lent scratch and rows, stale from the call before, and checks graph and padding in each call.

use differential::calls::Calls;
use differential::inputs::*;
use differential::model::{lit, Graph, Model, ModelTables, Packed};
use differential::rng::Rng;
use differential::{original, Compared, COMPARED};
use published::qec::decoder::{probe, UnionFindDecoder};
use std::hint::black_box;
use std::time::Instant;

const STAND_IN: bool = cfg!(not(feature = "library"));

fn seconds<T>(f: &mut dyn FnMut() -> T) -> f64 {
    let start = Instant::now();
    black_box(f());
    start.elapsed().as_secs_f64()
}

/// The best time of each side.
fn race<A, B>(times: usize, mut original: impl FnMut() -> A, mut ours: impl FnMut() -> B) -> (f64, f64) {
    let mut best = (f64::INFINITY, f64::INFINITY);
    for _ in 0..times {
        best.0 = best.0.min(seconds(&mut original));
        best.1 = best.1.min(seconds(&mut ours));
    }
    best
}

fn row(what: &str, of: &str, n: usize, (original, ours): (f64, f64)) {
    let each = |t: f64| t / n as f64 * 1e9;
    println!("| {what} | {of} | {:.0} | {:.0} | {:.2} |", each(original), each(ours), original / ours);
}

/// Both sides on one batch, after a look that their rows are equal.
fn race_batch(calls: &mut Compared, decoder: &UnionFindDecoder, graph: &Graph, rows: &Packed, times: usize) -> (f64, f64) {
    let packed = original::pack(rows).unwrap();
    let mut out = vec![0u64; rows.shots * graph.row_words()];
    calls.decode_batch(graph, rows, &mut out).unwrap();
    assert_eq!(decoder.decode_packed(&packed).unwrap().into_data(), out, "rows differ");
    race(times, || decoder.decode_packed(black_box(&packed)).unwrap(), || calls.decode_batch(graph, black_box(rows), &mut out).unwrap())
}

fn batch_of(model: &Model, shots: usize) -> (UnionFindDecoder, Graph, Packed) {
    let decoder = original::compile(&original::decompose(model).unwrap()).unwrap();
    let graph = original::graph(&decoder);
    let (rows, _) = sample(model, shots, &mut Rng(model.detectors as u64));
    (decoder, graph, Packed::of(&rows, model.detectors))
}

fn shots() {
    for d in [5, 7, 9, 11, 13] {
        for p in [0.001, 0.005, 0.01] {
            let count = if STAND_IN {
                10
            } else if d <= 7 {
                20_000
            } else {
                5_000
            };
            let (decoder, graph, rows) = batch_of(&surface(d, p, Hyper::Bare), count);
            let times = race_batch(&mut Compared::default(), &decoder, &graph, &rows, 7);
            let each = lit(&rows.data) as f64 / count as f64;
            let what = format!("batch d = {d}, p = {p}: {} detectors, {} edges, {each:.1} lit", graph.detectors, graph.edges());
            row(&what, "shot", count, times);
        }
    }
}

/// Each shot by a call of its own, so that checks and adjacency are made anew for each.
fn single_shots() {
    let count = if STAND_IN { 5 } else { 200 };
    let (decoder, graph, rows) = batch_of(&surface(13, 0.005, Hyper::Bare), count);
    let width = rows.data.len() / count;
    let each: Vec<Packed> = rows.data.chunks(width).map(|r| Packed { data: r.to_vec(), shots: 1, width: rows.width }).collect();
    let packed: Vec<_> = each.iter().map(|r| original::pack(r).unwrap()).collect();
    let (mut calls, mut out, mut list) = (Compared::default(), vec![0u64; graph.row_words()], vec![0u32; graph.detectors]);
    let times = race(
        5,
        || packed.iter().for_each(|p| _ = black_box(decoder.decode_packed(p).unwrap())),
        || each.iter().for_each(|r| _ = black_box(calls.decode_shot(&graph, &r.data, r.width, &mut out, &mut list))),
    );
    row("single calls d = 13, p = 0.005 (the original's list is not to be had)", "shot", count, times);
}

fn models() {
    for hyper in HYPERS {
        let model = surface(13, 0.003, hyper);
        let (theirs, tables, mut calls) = (original::model(&model), model.tables(), Compared::default());
        let decomposed = original::decompose(&model).unwrap();
        let mut out = ModelTables::places(model.size(), 0);
        assert_eq!(calls.decompose(&tables, &mut out).unwrap(), decomposed.size());
        let times = race(10, || theirs.decompose_graphlike().unwrap(), || calls.decompose(&tables, &mut out).unwrap());
        row(&format!("decompose d = 13, {hyper:?}: {} mechanisms", model.mechanisms.len()), "call", 1, times);

        let (theirs, tables, n) = (original::model(&decomposed), decomposed.tables(), decomposed.mechanisms.len());
        let (edge_u, edge_v, edge_weight, edge_obs) = (vec![0; n], vec![0; n], vec![0.0; n], vec![0; n]);
        let mut out = Graph { detectors: model.detectors, observables: model.observables, edge_u, edge_v, edge_weight, edge_obs };
        assert_eq!(calls.compile(&tables, &mut out).unwrap(), original::graph(&UnionFindDecoder::from_model(&theirs).unwrap()).edges());
        let times = race(10, || UnionFindDecoder::from_model(&theirs).unwrap(), || calls.compile(&tables, &mut out).unwrap());
        row(&format!("compile d = 13, {hyper:?}: {n} mechanisms"), "call", 1, times);
    }
}

/// Over no edges a batch ends at its first lit shot, so listing alone cannot be measured there: blank rows show the reading of the words, and an
/// edge of weight zero to the boundary at each detector shows listing with one round and one peeled edge for each lit detector.
fn listing() {
    let count = if STAND_IN { 20 } else { 10_000 };
    let mut rng = Rng(9);
    let blank = Packed { data: vec![0; count * 64], shots: count, width: 4096 };
    let rows: Vec<Vec<u64>> = (0..count).map(|_| random_row(&mut rng, 4096, 0.01)).collect();
    let rows = Packed::of(&rows, 4096);
    let mut graph = Graph { detectors: 4096, observables: 1, ..Graph::default() };
    let times = race_batch(&mut Compared::default(), &original::decoder(&graph), &graph, &blank, 7);
    row("blank rows of width 4,096, no edges", "shot", count, times);
    (0..4096).for_each(|x| graph.push(x, None, 0.0, &[1]));
    let decoder = original::decoder(&graph);
    let times = race_batch(&mut Compared::default(), &decoder, &graph, &rows, 7);
    row("rows of width 4,096, one in a hundred lit, each at a boundary edge of weight 0", "shot", count, times);
    let mut lister = probe::Lister::new(&decoder);
    let alone = (0..7).map(|_| seconds(&mut || rows.data.chunks(64).map(|r| black_box(lister.list(r)).len()).sum::<usize>()));
    let best = alone.fold(f64::INFINITY, f64::min) / count as f64 * 1e9;
    println!("| the original's listing loop alone on these rows; the C boundary does not offer it | shot | {best:.0} | | |");
}

fn worst_like() {
    for (d, e) in if STAND_IN { [(64, 256), (256, 1024)] } else { [(1024, 4096), (4096, 16384)] } {
        let (graph, shot) = worst(&mut Rng(4), d, e);
        let rows = Packed { data: shot, shots: 1, width: d };
        let decoder = original::decoder(&graph);
        let rounds = probe::Capture::new(&decoder).shot_set(&rows.data).rounds;
        let times = race_batch(&mut Compared::default(), &decoder, &graph, &rows, 1);
        row(&format!("worst-like shot: {d} detectors, {e} edges, {rounds} rounds"), "shot", 1, times);
    }
}

fn one(args: &[String]) {
    let number = |at: usize| args[at].parse::<usize>().expect("a number");
    let (decoder, graph, rows) = batch_of(&surface(number(1), args[2].parse().expect("a probability"), Hyper::Bare), number(3));
    let packed = original::pack(&rows).unwrap();
    let (mut calls, mut out) = (Compared::default(), vec![0u64; rows.shots * graph.row_words()]);
    let time = seconds(&mut || {
        for _ in 0..number(4) {
            match args[0].as_str() {
                "original" => drop(black_box(decoder.decode_packed(black_box(&packed)).unwrap())),
                "ours" => calls.decode_batch(&graph, black_box(&rows), &mut out).unwrap(),
                side => panic!("no side `{side}`"),
            }
        }
    });
    println!("{} shots, {} times: {:.0} ns a shot", rows.shots, number(4), time / (rows.shots * number(4)) as f64 * 1e9);
}

fn main() {
    let args: Vec<String> = std::env::args().skip(1).collect();
    if args.first().is_some_and(|x| x == "one") {
        return one(&args[1..]);
    }
    println!("The original against {COMPARED}; ratio is the original's time over ours.\n");
    println!("| what | of a | original ns | ours ns | ratio |\n|---|---|---|---|---|");
    let parts: [(&str, fn()); 5] =
        [("shots", shots), ("single", single_shots), ("models", models), ("listing", listing), ("worst", worst_like)];
    for (_, part) in parts.iter().filter(|(name, _)| args.is_empty() || args.iter().any(|x| x == name)) {
        part();
    }
}
