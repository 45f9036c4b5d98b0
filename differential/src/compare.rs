//! A case run through the original and through the calls. Where the original has an answer the two must be equal to the bit; what it does not
//! have (codes 1, 2, 5 and 13, the marker, lent memory) is held to the rules' words in `rules`.

use crate::calls::{Calls, Mark, ShotAnswer};
use crate::case::{Case, Input};
use crate::model::{words, Graph, Model, ModelSize, ModelTables, Packed, Refusal};
use crate::{original, rules};
use published::qec::decoder::{probe, UnionFindDecoder};

/// What lent memory holds before a call.
const FILL: u8 = 0xa5;
const WORD: u64 = 0xa5a5_a5a5_a5a5_a5a5;

/// Shots of a case beyond this number are compared as a batch and for their rows alone.
const PROBED: usize = 4000;

/// How much of each kind was met.
#[derive(Default, Debug, Clone)]
pub struct Seen {
    pub cases: u64,
    pub decomposed: u64,
    pub graphs: u64,
    pub edges: u64,
    pub infinite: u64,
    pub zero: u64,
    pub shots: u64,
    pub stuck: u64,
    pub marked: u64,
    pub rates: u64,
    pub most_rounds: u64,
    pub longest_list: usize,
    /// Refusals by code, of all calls.
    pub refused: [u64; 14],
}

impl Seen {
    pub fn add(&mut self, other: &Seen) {
        self.cases += other.cases;
        self.decomposed += other.decomposed;
        self.graphs += other.graphs;
        self.edges += other.edges;
        self.infinite += other.infinite;
        self.zero += other.zero;
        self.shots += other.shots;
        self.stuck += other.stuck;
        self.marked += other.marked;
        self.rates += other.rates;
        self.most_rounds = self.most_rounds.max(other.most_rounds);
        self.longest_list = self.longest_list.max(other.longest_list);
        self.refused.iter_mut().zip(other.refused).for_each(|(a, b)| *a += b);
    }

    fn refusal(&mut self, refusal: Refusal) {
        self.refused[refusal.code as usize] += 1;
    }
}

impl std::fmt::Display for Seen {
    fn fmt(&self, f: &mut std::fmt::Formatter<'_>) -> std::fmt::Result {
        write!(f, "{} cases: {} decomposed, {} graphs", self.cases, self.decomposed, self.graphs)?;
        write!(f, " ({} edges, {} infinite, {} zero), {} shots", self.edges, self.infinite, self.zero, self.shots)?;
        write!(f, " ({} Stuck, most rounds {}, longest list {})", self.stuck, self.most_rounds, self.longest_list)?;
        write!(f, ", {} lists marked, {} rates; refusals", self.marked, self.rates)?;
        for (code, n) in self.refused.iter().enumerate().filter(|(_, n)| **n > 0) {
            write!(f, " {code}: {n}")?;
        }
        Ok(())
    }
}

fn equal<T: PartialEq + std::fmt::Debug>(what: &str, original: T, ours: T) -> Result<(), String> {
    if original == ours {
        return Ok(());
    }
    Err(format!("{what}: expected {original:?}, got {ours:?}"))
}

fn ensure(holds: bool, what: &str) -> Result<(), String> {
    if holds {
        Ok(())
    } else {
        Err(what.into())
    }
}

fn unwritten<T: PartialEq>(table: &[T], from: usize, fill: T) -> bool {
    table[from..].iter().all(|x| *x == fill)
}

/// All of a case.
pub fn check(case: &Case, calls: &mut dyn Calls, seen: &mut Seen) -> Result<(), String> {
    seen.cases += 1;
    let (graph, decoder) = match &case.input {
        Input::Graph(graph) => (graph.clone(), None),
        Input::Model(model) => {
            let plain = check_compile(model, calls, seen)?;
            let decoder = match check_decompose(model, calls, seen)? {
                Some(decomposed) => check_compile(&decomposed, calls, seen)?,
                None => plain,
            };
            match decoder {
                Some(decoder) => (original::graph(&decoder), Some(decoder)),
                None => return Ok(()),
            }
        }
    };
    if let Err(refusal) = limits(case).and_then(|()| rules::check_graph(&graph)) {
        seen.refusal(refusal);
        return check_refused(&graph, case, refusal, calls);
    }
    let decoder = decoder.unwrap_or_else(|| original::decoder(&graph));
    let decoded = check_shots(&decoder, &graph, &case.rows, calls, seen)?;
    let left = check_batch(&decoder, &graph, &case.rows, &decoded, calls, seen)?;
    check_rate(&decoder, &graph, case, &left, calls, seen)
}

fn limits(case: &Case) -> Result<(), Refusal> {
    rules::check_shots(&case.rows)?;
    rules::check_shots(&case.truth)
}

/// Decomposition: the mechanisms in order, their lists and the bits of their probabilities, or the first refusal.
pub fn check_decompose(model: &Model, calls: &mut dyn Calls, seen: &mut Seen) -> Result<Option<Model>, String> {
    let given = model.size();
    // Places enough that only the limit on mechanisms can be reached.
    let split = |m: &crate::model::Mechanism| m.components.iter().map(|c| c.0.len() + c.1.len()).sum::<usize>();
    let places = ModelSize {
        mechanisms: given.mechanisms + given.components + 1,
        components: given.components + 1,
        entries: given.entries + model.mechanisms.iter().map(split).sum::<usize>() + 1,
    };
    let mut out = ModelTables::places(places, FILL);
    let limit = ModelSize { mechanisms: rules::MAX_MECHANISMS, ..places };
    let expected = rules::check_model(model).and_then(|()| original::decompose_within(model, limit));
    let answer = calls.decompose(&model.tables(), &mut out);
    match (expected, answer) {
        (Ok(expected), Ok(size)) => {
            seen.decomposed += 1;
            equal("decomposed size", expected.size(), size)?;
            let ours = out.read(model.detectors, model.observables, size.mechanisms);
            for (i, (a, b)) in expected.mechanisms.iter().zip(&ours.mechanisms).enumerate() {
                equal(&format!("probability of decomposed mechanism {i}"), a.probability.to_bits(), b.probability.to_bits())?;
                equal(&format!("decomposed mechanism {i}"), a, b)?;
            }
            ensure(out.rest_is(size, FILL), "places past the decomposed model were written")?;
            Ok(Some(expected))
        }
        (Err(expected), Err(refusal)) => {
            seen.refusal(expected);
            equal("refusal of decompose", expected, refusal)?;
            ensure(out.rest_is(ModelSize::default(), 0), "tables not zero after a refusal of decompose")?;
            Ok(None)
        }
        (expected, answer) => Err(format!("decompose: expected {:?}, got {answer:?}", expected.map(|m| m.size()))),
    }
}

/// Compiling: edges in order, their ends, the bits of their weights, their observables, or the first refusal.
pub fn check_compile(model: &Model, calls: &mut dyn Calls, seen: &mut Seen) -> Result<Option<UnionFindDecoder>, String> {
    let n = model.mechanisms.len();
    let bad = (0..n).find(|&i| !rules::lists_ok(model, i));
    // The original believes the lists, so it is asked only about what comes before a bad one.
    let before = || original::compile(&Model { mechanisms: model.mechanisms[..bad.unwrap_or(n)].to_vec(), ..*model });
    let expected = rules::limits(model.detectors, model.observables, n)
        .and_then(|()| before())
        .and_then(|decoder| bad.map_or(Ok(decoder), |at| Err(Refusal::new(5, at, 0))));
    let mut out = Graph {
        edge_u: vec![WORD as u32; n],
        edge_v: vec![WORD as u32; n],
        edge_weight: vec![f64::from(FILL); n],
        edge_obs: vec![WORD; n * words(model.observables)],
        detectors: model.detectors,
        observables: model.observables,
    };
    let answer = calls.compile(&model.tables(), &mut out);
    match (expected, answer) {
        (Ok(expected), Ok(edges)) => {
            seen.graphs += 1;
            equal_graph(&original::graph(&expected), &out, edges, seen)?;
            Ok(Some(expected))
        }
        (Err(expected), Err(refusal)) => {
            seen.refusal(expected);
            equal("refusal of compile", expected, refusal)?;
            let zero = unwritten(&out.edge_u, 0, 0) && unwritten(&out.edge_v, 0, 0) && unwritten(&out.edge_obs, 0, 0);
            ensure(zero && out.edge_weight.iter().all(|w| w.to_bits() == 0), "tables not zero after a refusal of compile")?;
            Ok(None)
        }
        (expected, answer) => Err(format!("compile: expected {:?}, got {answer:?}", expected.map(|_| "a graph"))),
    }
}

fn equal_graph(expected: &Graph, out: &Graph, edges: usize, seen: &mut Seen) -> Result<(), String> {
    equal("edges", expected.edges(), edges)?;
    for e in 0..edges {
        equal(&format!("ends of edge {e}"), (expected.edge_u[e], expected.edge_v[e]), (out.edge_u[e], out.edge_v[e]))?;
        equal(&format!("weight of edge {e}"), expected.edge_weight[e].to_bits(), out.edge_weight[e].to_bits())?;
        equal(&format!("observables of edge {e}"), expected.edge_observables(e), out.edge_observables(e))?;
        seen.infinite += u64::from(expected.edge_weight[e].is_infinite());
        seen.zero += u64::from(expected.edge_weight[e] == 0.0);
    }
    seen.edges += edges as u64;
    let rest = unwritten(&out.edge_u, edges, WORD as u32)
        && unwritten(&out.edge_v, edges, WORD as u32)
        && unwritten(&out.edge_weight, edges, f64::from(FILL))
        && unwritten(&out.edge_obs, edges * out.row_words(), WORD);
    ensure(rest, "entries past the edges were written")
}

/// A graph or a number of shots that every call refuses.
fn check_refused(graph: &Graph, case: &Case, refusal: Refusal, calls: &mut dyn Calls) -> Result<(), String> {
    let row = graph.row_words();
    let mut out = vec![WORD; case.rows.shots.min(1 << 20) * row];
    if rules::check_shots(&case.rows).is_err() {
        out.clear();
    }
    equal("refusal of decode_batch", Err(refusal), calls.decode_batch(graph, &case.rows, &mut out))?;
    equal("refusal of rate", Err(refusal), calls.rate(graph, &case.rows, &case.truth, &mut out))?;
    ensure(unwritten(&out, 0, WORD), "rows written by a refused call")?;
    if rules::check_graph(graph).is_ok() {
        return Ok(());
    }
    let (shot, mut list) = (vec![0; words(graph.detectors)], vec![WORD as u32; graph.detectors]);
    let mut out = vec![WORD; row];
    let answer = calls.decode_shot(graph, &shot, graph.detectors, &mut out, &mut list);
    equal("refusal of decode_shot", ShotAnswer { refusal: Some(refusal), rounds: 0, length: 0 }, answer)?;
    equal("refusal of mark", Err(refusal), calls.mark(graph, &shot, graph.detectors, &[], &mut out))?;
    ensure(unwritten(&out, 0, WORD) && unwritten(&list, 0, WORD as u32), "row or list written by a refused call")
}

/// Each shot alone: its row, list, rounds and Stuck. The rows of the original, a Stuck shot's being none.
fn check_shots(
    decoder: &UnionFindDecoder,
    graph: &Graph,
    rows: &Packed,
    calls: &mut dyn Calls,
    seen: &mut Seen,
) -> Result<Vec<Option<Vec<u64>>>, String> {
    if original::pack(rows).is_err() || rows.width != graph.detectors || rows.shots > PROBED {
        return check_shot_refused(decoder, graph, rows, calls).map(|()| Vec::new());
    }
    let mut capture = probe::Capture::new(decoder);
    let width = words(rows.width);
    let mut decoded = Vec::new();
    for s in 0..rows.shots {
        let shot = &rows.data[s * width..(s + 1) * width];
        decoded.push(check_shot(decoder, &mut capture, graph, shot, calls, seen).map_err(|e| format!("shot {s}: {e}"))?);
    }
    Ok(decoded)
}

/// One shot of wrong rows: what refuses the rows refuses the shot.
fn check_shot_refused(decoder: &UnionFindDecoder, graph: &Graph, rows: &Packed, calls: &mut dyn Calls) -> Result<(), String> {
    let alone = Packed { data: rows.data[..rows.data.len().min(words(rows.width))].to_vec(), shots: 1, width: rows.width };
    let Err(refusal) = original::batch(decoder, &alone) else { return Ok(()) };
    if refusal.code == 11 {
        return Ok(());
    }
    let (mut row, mut list) = (vec![WORD; graph.row_words()], vec![WORD as u32; graph.detectors]);
    let answer = calls.decode_shot(graph, &alone.data, alone.width, &mut row, &mut list);
    equal("refusal of decode_shot", ShotAnswer { refusal: Some(refusal), rounds: 0, length: 0 }, answer)?;
    equal("refusal of mark", Err(refusal), calls.mark(graph, &alone.data, alone.width, &[], &mut row))?;
    ensure(unwritten(&row, 0, WORD) && unwritten(&list, 0, WORD as u32), "row or list written by a refused shot")
}

fn check_shot(
    decoder: &UnionFindDecoder,
    capture: &mut probe::Capture,
    graph: &Graph,
    shot: &[u64],
    calls: &mut dyn Calls,
    seen: &mut Seen,
) -> Result<Option<Vec<u64>>, String> {
    seen.shots += 1;
    let told = original::batch(decoder, &Packed { data: shot.to_vec(), shots: 1, width: graph.detectors });
    let captured = capture.shot_list(shot);
    seen.most_rounds = seen.most_rounds.max(captured.rounds);
    let (mut row, mut list) = (vec![WORD; graph.row_words() + 1], vec![WORD as u32; graph.detectors + 1]);
    let answer = calls.decode_shot(graph, shot, graph.detectors, &mut row, &mut list);
    if answer.refusal.map_or(true, |r| r.code == 11) {
        equal("rounds", captured.rounds, answer.rounds)?;
        if let Some(saturated) = calls.saturated() {
            equal("saturated edges", &captured.saturated[..], saturated)?;
        }
    }
    equal("answer", told.as_ref().err().copied(), answer.refusal)?;
    equal("Stuck's detector", captured.stuck, answer.refusal.map(|r| r.second as u32))?;
    equal("list", &captured.list[..], &list[..answer.length])?;
    ensure(unwritten(&list, answer.length, WORD as u32), "the list was written past its end")?;
    let Ok(told) = told else {
        seen.stuck += 1;
        ensure(unwritten(&row, 0, WORD), "the row of a Stuck shot was written")?;
        return Ok(None);
    };
    seen.longest_list = seen.longest_list.max(answer.length);
    let expected: Vec<u64> = told.iter().map(|word| word ^ WORD).chain([WORD]).collect();
    equal("row", &expected, &row)?;
    check_marks(graph, shot, &list[..answer.length], &told, calls, seen)?;
    Ok(Some(told))
}

/// The marker passes the decoder's list and writes the same row; other lists are held to the rules' words.
fn check_marks(graph: &Graph, shot: &[u64], list: &[u32], told: &[u64], calls: &mut dyn Calls, seen: &mut Seen) -> Result<(), String> {
    let mut row = vec![WORD; graph.row_words() + 1];
    equal("mark of the decoder's list", Ok(Mark::Pass), calls.mark(graph, shot, graph.detectors, list, &mut row))?;
    equal("row of the marker", told, &row[..told.len()])?;
    seen.marked += 1;
    let mut others = vec![[list, &[graph.edges() as u32]].concat()];
    if let Some((last, rest)) = list.split_last() {
        others.extend([rest.to_vec(), [list, &[*last]].concat()]);
    }
    for other in others {
        let mut row = vec![WORD; graph.row_words()];
        let expected = rules::mark(graph, shot, &other);
        let answer = calls.mark(graph, shot, graph.detectors, &other, &mut row);
        equal("mark of another list", expected.clone().map(|x| x.0), answer)?;
        let written = matches!(&expected, Ok((Mark::Pass, _)));
        let after = if written { expected.unwrap().1 } else { vec![WORD; row.len()] };
        equal("row of the marker for another list", after, row)?;
        seen.marked += 1;
    }
    Ok(())
}

/// The batch: its rows, or the first refusal with its shot and detector, and the rows that it leaves.
fn check_batch(
    decoder: &UnionFindDecoder,
    graph: &Graph,
    rows: &Packed,
    decoded: &[Option<Vec<u64>>],
    calls: &mut dyn Calls,
    seen: &mut Seen,
) -> Result<Vec<u64>, String> {
    let row = graph.row_words();
    let mut out = vec![WORD; rows.shots * row + 1];
    let expected = original::batch(decoder, rows);
    let answer = calls.decode_batch(graph, rows, &mut out);
    equal("answer of decode_batch", expected.as_ref().err().copied(), answer.err())?;
    let left: Vec<u64> = match expected {
        Ok(data) => data,
        Err(refusal) => {
            seen.refusal(refusal);
            match refusal.code {
                // Earlier rows done, this row zero, later ones untouched.
                11 => decoded.iter().take(refusal.first).flatten().flatten().copied().chain(vec![0; row]).collect(),
                _ => Vec::new(),
            }
        }
    };
    equal("rows of the batch", &left[..], &out[..left.len()])?;
    ensure(unwritten(&out, left.len(), WORD), "rows past those done were written")?;
    Ok(left)
}

/// The rate to the bit, or the first refusal in its order: both packings, width, decoding, shapes. `left` is what the batch leaves.
fn check_rate(
    decoder: &UnionFindDecoder,
    graph: &Graph,
    case: &Case,
    left: &[u64],
    calls: &mut dyn Calls,
    seen: &mut Seen,
) -> Result<(), String> {
    let mut out = vec![WORD; case.rows.shots * graph.row_words()];
    let expected = original::rate(decoder, &case.rows, &case.truth);
    let answer = calls.rate(graph, &case.rows, &case.truth, &mut out);
    seen.rates += 1;
    if let Err(refusal) = expected {
        seen.refusal(refusal);
    }
    equal("rate", expected.map(f64::to_bits), answer.map(f64::to_bits))?;
    // Code 11 leaves what the batch leaves, code 12 finds all rows done; the others come before any row.
    let done = if expected.is_err_and(|r| r.code < 11) { &[] } else { left };
    equal("rows of the rate", done, &out[..done.len()])?;
    ensure(unwritten(&out, done.len(), WORD), "rows past those done were written by the rate")
}
