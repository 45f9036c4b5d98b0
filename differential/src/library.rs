//! The static library behind the calls, through the client crate, and the scratch that a host lends.

use crate::calls::{Calls, Mark, ShotAnswer};
use crate::model::{Graph, ModelSize, ModelTables, Packed, Refusal};
use crate::rng::Rng;
use pavrenni::raw;

/// Values that stale scratch may hold: what it holds reaches no answer.
trait Stale {
    fn stale(rng: &mut Rng) -> Self;
}

macro_rules! stale {
    ($($type:ty: $value:expr),*) => { $(impl Stale for $type {
        fn stale(rng: &mut Rng) -> Self {
            let value: fn(u64) -> $type = $value;
            value(rng.next())
        }
    })* };
}

stale!(u16: |x| x as u16, u32: |x| x as u32, u64: |x| x, bool: |x| x & 1 == 1, f64: f64::from_bits);

impl<T: Stale, const N: usize> Stale for [T; N] {
    fn stale(rng: &mut Rng) -> Self {
        std::array::from_fn(|_| T::stale(rng))
    }
}

fn lengthen<T: Stale>(table: &mut Vec<T>, length: usize, rng: &mut Rng) {
    while table.len() < length {
        table.push(T::stale(rng));
    }
}

/// Lengthens the scratch tables named to the lengths that the library gives.
macro_rules! fit {
    ($scratch:expr, $lengths:expr; $($table:ident),*) => {
        let (lengths, mut rng) = ($lengths, Rng(0));
        $(lengthen(&mut $scratch.$table, lengths.$table, &mut rng);)*
    };
}

/// A call that fills tables of the client: those of the harness stand there during it.
macro_rules! filling {
    ($tables:ident with $out:ident: $($table:ident),*; $call:expr) => {{
        $(std::mem::swap(&mut $tables.$table, &mut $out.$table);)*
        let answer = $call;
        $(std::mem::swap(&mut $tables.$table, &mut $out.$table);)*
        answer
    }};
}

/// A refusal from an answer's first three fields.
macro_rules! refusal {
    ($answer:expr) => {
        match $answer.code {
            0 => None,
            code => Some(Refusal::new(code, $answer.first, $answer.second)),
        }
    };
}

impl<'a> From<&'a ModelTables> for raw::LentTables<'a> {
    fn from(model: &'a ModelTables) -> Self {
        raw::LentTables {
            probability: &model.probability,
            detector_counts: &model.detector_counts,
            observable_counts: &model.observable_counts,
            component_counts: &model.component_counts,
            component_detectors: &model.component_detectors,
            component_observables: &model.component_observables,
            entries: &model.entries,
        }
    }
}

impl<'a> From<&'a Graph> for raw::LentGraph<'a> {
    fn from(graph: &'a Graph) -> Self {
        raw::LentGraph {
            detectors: graph.detectors,
            observables: graph.observables,
            edge_u: &graph.edge_u,
            edge_v: &graph.edge_v,
            edge_weight: &graph.edge_weight,
            edge_obs: &graph.edge_obs,
        }
    }
}

impl<'a> From<&'a Packed> for pavrenni::Packed<'a> {
    fn from(rows: &'a Packed) -> Self {
        pavrenni::Packed { words: &rows.data, shots: rows.shots, width: rows.width }
    }
}

fn counts(model: &ModelTables) -> [usize; 3] {
    [model.detectors, model.observables, model.mechanisms]
}

#[derive(Default)]
pub struct Library {
    scratch: raw::Scratch,
    decompose: raw::DecomposeScratch,
    compile: raw::CompileScratch,
    mark: raw::MarkScratch,
    list: Vec<u32>,
}

impl Library {
    fn fit(&mut self, graph: &Graph) {
        fit!(self.scratch, raw::lengths(graph.detectors, graph.edges()); adj_offsets, adj, tree, flags, stacks, links, growth, sat);
        lengthen(&mut self.list, graph.detectors, &mut Rng(1));
    }
}

impl Calls for Library {
    fn decompose(&mut self, model: &ModelTables, out: &mut ModelTables) -> Result<ModelSize, Refusal> {
        fit!(self.decompose, raw::decompose_lengths(model.detectors, model.mechanisms);
            starts, before, last_of, first_of, next_of, numbers, masks, words0, words1, earlier);
        let mut tables = raw::Tables::default();
        let answer = filling!(tables with out:
            probability, detector_counts, observable_counts, component_counts, component_detectors, component_observables, entries;
            raw::decompose(counts(model), model, &mut tables, &mut self.decompose));
        let size = ModelSize { mechanisms: answer.mechanisms, components: answer.components, entries: answer.entries };
        refusal!(answer).map_or(Ok(size), Err)
    }

    fn compile(&mut self, model: &ModelTables, out: &mut Graph) -> Result<usize, Refusal> {
        fit!(self.compile, raw::compile_lengths(model.detectors, model.mechanisms); edge_p, first, next);
        let mut graph = pavrenni::Graph::default();
        let answer = filling!(graph with out: edge_u, edge_v, edge_weight, edge_obs;
            raw::compile(counts(model), model, &mut graph, &mut self.compile));
        refusal!(answer).map_or(Ok(answer.edges), Err)
    }

    fn decode_shot(&mut self, graph: &Graph, shot: &[u64], width: usize, row: &mut [u64], list: &mut [u32]) -> ShotAnswer {
        self.fit(graph);
        let answer = raw::decode_shot(graph, graph.edges(), shot, width, row, list, &mut self.scratch);
        ShotAnswer { refusal: refusal!(answer), rounds: u64::from(answer.rounds), length: answer.length }
    }

    fn decode_batch(&mut self, graph: &Graph, rows: &Packed, out: &mut [u64]) -> Result<(), Refusal> {
        self.fit(graph);
        let answer = raw::decode_batch(graph, graph.edges(), rows.into(), out, &mut self.list, &mut self.scratch);
        refusal!(answer).map_or(Ok(()), Err)
    }

    fn mark(&mut self, graph: &Graph, shot: &[u64], width: usize, list: &[u32], row: &mut [u64]) -> Result<Mark, Refusal> {
        fit!(self.mark, raw::mark_lengths(graph.detectors, graph.edges()); marks, wrong);
        let answer = raw::mark(graph, graph.edges(), shot, width, list, row, &mut self.mark);
        let mark = if answer.passed == 1 { Mark::Pass } else { Mark::Differs(answer.detector) };
        refusal!(answer).map_or(Ok(mark), Err)
    }

    fn rate(&mut self, graph: &Graph, rows: &Packed, truth: &Packed, out: &mut [u64]) -> Result<f64, Refusal> {
        self.fit(graph);
        let answer = raw::rate(graph, graph.edges(), rows.into(), truth.into(), out, &mut self.list, &mut self.scratch);
        refusal!(answer).map_or(Ok(answer.rate), Err)
    }
}
