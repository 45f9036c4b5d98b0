//! The second implementation behind the calls: to try the harness without the library, and to put slips into.

use crate::calls::{Calls, Mark, ShotAnswer};
use crate::model::{words, Graph, Model, ModelSize, ModelTables, Packed, Refusal};
use crate::rules;
use crate::stated::{self, Reading};

#[derive(Default)]
pub struct StandIn {
    reading: Reading,
    /// The growth that the shot before left, for the reading that keeps it.
    left: Vec<f64>,
    saturated: Vec<u32>,
    /// Whether the saturated edges stay untold, as at the C boundary.
    untold: bool,
}

impl StandIn {
    /// A reading of the rules, telling no more than the C boundary does.
    pub fn of(reading: Reading) -> StandIn {
        StandIn { reading, untold: true, ..StandIn::default() }
    }

    /// A shot into its row, by exclusive or.
    fn shot(&mut self, graph: &Graph, shot: &[u64], row: &mut [u64]) -> stated::Shot {
        let answer = stated::decode_shot(graph, shot, &self.reading, &mut self.left);
        if self.reading.row_overwritten {
            row.fill(0);
        }
        for &e in &answer.list {
            row.iter_mut().zip(graph.edge_observables(e as usize)).for_each(|(word, mask)| *word ^= mask);
        }
        answer
    }
}

fn read(model: &ModelTables) -> Model {
    model.read(model.detectors, model.observables, model.mechanisms)
}

fn zero(tables: &mut ModelTables) {
    let size =
        ModelSize { mechanisms: tables.probability.len(), components: tables.component_detectors.len(), entries: tables.entries.len() };
    *tables = ModelTables::places(size, 0);
}

fn check_shot(graph: &Graph, shot: &[u64], width: usize) -> Result<(), Refusal> {
    check(graph, &Packed { data: shot.to_vec(), shots: 1, width })
}

fn check(graph: &Graph, rows: &Packed) -> Result<(), Refusal> {
    rules::check_shots(rows)?;
    rules::check_graph(graph)?;
    rules::check_packed(rows)?;
    width(graph, rows)
}

fn width(graph: &Graph, rows: &Packed) -> Result<(), Refusal> {
    if rows.width == graph.detectors {
        Ok(())
    } else {
        Err(Refusal::new(10, 0, 0))
    }
}

impl Calls for StandIn {
    fn decompose(&mut self, model: &ModelTables, out: &mut ModelTables) -> Result<ModelSize, Refusal> {
        let model = read(model);
        let answer = rules::check_model(&model).and_then(|()| stated::decompose(&model, &self.reading));
        let decomposed = answer.inspect_err(|_| zero(out))?;
        let (size, written) = (decomposed.size(), decomposed.tables());
        out.probability[..size.mechanisms].copy_from_slice(&written.probability);
        out.detector_counts[..size.mechanisms].copy_from_slice(&written.detector_counts);
        out.observable_counts[..size.mechanisms].copy_from_slice(&written.observable_counts);
        out.component_counts[..size.mechanisms].copy_from_slice(&written.component_counts);
        out.component_detectors[..size.components].copy_from_slice(&written.component_detectors);
        out.component_observables[..size.components].copy_from_slice(&written.component_observables);
        out.entries[..size.entries].copy_from_slice(&written.entries);
        Ok(size)
    }

    fn compile(&mut self, model: &ModelTables, out: &mut Graph) -> Result<usize, Refusal> {
        let model = read(model);
        let bad = (0..model.mechanisms.len()).find(|&i| !rules::lists_ok(&model, i));
        let before = Model { mechanisms: model.mechanisms[..bad.unwrap_or(model.mechanisms.len())].to_vec(), ..model };
        let compiled = rules::limits(model.detectors, model.observables, model.mechanisms.len())
            .and_then(|()| stated::compile(&before, &self.reading))
            .and_then(|g| bad.map_or(Ok(g), |at| Err(Refusal::new(5, at, 0))));
        let graph = compiled.inspect_err(|_| {
            out.edge_u.fill(0);
            out.edge_v.fill(0);
            out.edge_weight.fill(0.0);
            out.edge_obs.fill(0);
        })?;
        let n = graph.edges();
        out.edge_u[..n].copy_from_slice(&graph.edge_u);
        out.edge_v[..n].copy_from_slice(&graph.edge_v);
        out.edge_weight[..n].copy_from_slice(&graph.edge_weight);
        out.edge_obs[..graph.edge_obs.len()].copy_from_slice(&graph.edge_obs);
        Ok(n)
    }

    fn decode_shot(&mut self, graph: &Graph, shot: &[u64], width: usize, row: &mut [u64], list: &mut [u32]) -> ShotAnswer {
        if let Err(refusal) = check_shot(graph, shot, width) {
            return ShotAnswer { refusal: Some(refusal), rounds: 0, length: 0 };
        }
        self.left.clear();
        let answer = self.shot(graph, shot, row);
        list[..answer.list.len()].copy_from_slice(&answer.list);
        self.saturated = answer.saturated;
        let refusal = answer.stuck.map(|detector| Refusal::new(11, 0, detector as usize));
        ShotAnswer { refusal, rounds: answer.rounds, length: answer.list.len() }
    }

    fn decode_batch(&mut self, graph: &Graph, rows: &Packed, out: &mut [u64]) -> Result<(), Refusal> {
        check(graph, rows)?;
        self.left.clear();
        let (shot_words, row_words) = (words(rows.width), graph.row_words());
        for s in 0..rows.shots {
            let row = &mut out[s * row_words..(s + 1) * row_words];
            row.fill(0);
            if let Some(detector) = self.shot(graph, &rows.data[s * shot_words..(s + 1) * shot_words], row).stuck {
                return Err(Refusal::new(11, s, detector as usize));
            }
        }
        Ok(())
    }

    fn mark(&mut self, graph: &Graph, shot: &[u64], width: usize, list: &[u32], row: &mut [u64]) -> Result<Mark, Refusal> {
        check_shot(graph, shot, width)?;
        let (mark, observables) = rules::mark(graph, shot, list)?;
        if mark == Mark::Pass {
            row[..observables.len()].copy_from_slice(&observables);
        }
        Ok(mark)
    }

    fn rate(&mut self, graph: &Graph, rows: &Packed, truth: &Packed, out: &mut [u64]) -> Result<f64, Refusal> {
        rules::check_shots(rows)?;
        rules::check_shots(truth)?;
        rules::check_graph(graph)?;
        rules::check_packed(rows)?;
        rules::check_packed(truth)?;
        let none = rows.shots == 0 || graph.observables == 0;
        if none && self.reading.rate_zero_first {
            return Ok(0.0);
        }
        width(graph, rows)?;
        self.decode_batch(graph, rows, out)?;
        if truth.shots != rows.shots || truth.width != graph.observables {
            return Err(Refusal::new(12, 0, 0));
        }
        if none {
            return Ok(0.0);
        }
        let row = graph.row_words();
        let failures = (0..rows.shots).filter(|s| out[s * row..(s + 1) * row] != truth.data[s * row..(s + 1) * row]).count();
        Ok(failures as f64 / rows.shots as f64)
    }

    fn saturated(&self) -> Option<&[u32]> {
        (!self.untold).then_some(&self.saturated)
    }
}
