//! Models, graphs and packed shots as docs/RULES.md speaks of them, and the flat tables in which a model is lent.

use std::fmt;

/// The boundary as second end of an edge.
pub const BOUNDARY: u32 = u32::MAX;

/// A list of detectors and a list of observables.
pub type Symptom = (Vec<usize>, Vec<usize>);

#[derive(Debug, Clone, PartialEq)]
pub struct Mechanism {
    pub probability: f64,
    pub detectors: Vec<usize>,
    pub observables: Vec<usize>,
    pub components: Vec<Symptom>,
}

#[derive(Debug, Clone, PartialEq)]
pub struct Model {
    pub detectors: usize,
    pub observables: usize,
    pub mechanisms: Vec<Mechanism>,
}

/// A model in lent tables, as the C boundary takes it.
#[derive(Debug, Clone, PartialEq, Default)]
pub struct ModelTables {
    pub detectors: usize,
    pub observables: usize,
    pub mechanisms: usize,
    pub probability: Vec<f64>,
    pub detector_counts: Vec<u8>,
    pub observable_counts: Vec<u8>,
    pub component_counts: Vec<u8>,
    pub component_detectors: Vec<u8>,
    pub component_observables: Vec<u8>,
    pub entries: Vec<u32>,
}

/// How much of a model's tables is in use.
#[derive(Debug, Clone, Copy, PartialEq, Default)]
pub struct ModelSize {
    pub mechanisms: usize,
    pub components: usize,
    pub entries: usize,
}

impl Model {
    pub fn size(&self) -> ModelSize {
        let lists = |d: &[usize], o: &[usize]| d.len() + o.len();
        let all = self.mechanisms.iter();
        ModelSize {
            mechanisms: self.mechanisms.len(),
            components: all.clone().map(|m| m.components.len()).sum(),
            entries: all.map(|m| lists(&m.detectors, &m.observables) + m.components.iter().map(|c| lists(&c.0, &c.1)).sum::<usize>()).sum(),
        }
    }

    pub fn tables(&self) -> ModelTables {
        let mut t = ModelTables {
            detectors: self.detectors,
            observables: self.observables,
            mechanisms: self.mechanisms.len(),
            ..ModelTables::default()
        };
        let write = |entries: &mut Vec<u32>, list: &[usize]| entries.extend(list.iter().map(|&x| x as u32));
        for m in &self.mechanisms {
            t.probability.push(m.probability);
            t.detector_counts.push(m.detectors.len() as u8);
            t.observable_counts.push(m.observables.len() as u8);
            t.component_counts.push(m.components.len() as u8);
            write(&mut t.entries, &m.detectors);
            write(&mut t.entries, &m.observables);
            for (detectors, observables) in &m.components {
                t.component_detectors.push(detectors.len() as u8);
                t.component_observables.push(observables.len() as u8);
                write(&mut t.entries, detectors);
                write(&mut t.entries, observables);
            }
        }
        t
    }
}

impl ModelTables {
    /// Tables of so many places, each filled.
    pub fn places(size: ModelSize, fill: u8) -> ModelTables {
        ModelTables {
            probability: vec![f64::from(fill); size.mechanisms],
            detector_counts: vec![fill; size.mechanisms],
            observable_counts: vec![fill; size.mechanisms],
            component_counts: vec![fill; size.mechanisms],
            component_detectors: vec![fill; size.components],
            component_observables: vec![fill; size.components],
            entries: vec![u32::from(fill); size.entries],
            ..ModelTables::default()
        }
    }

    /// The model that the first `mechanisms` heads tell of.
    pub fn read(&self, detectors: usize, observables: usize, mechanisms: usize) -> Model {
        let (mut component, mut at) = (0, 0);
        let mut take = |n: u8| {
            let list = self.entries[at..at + usize::from(n)].iter().map(|&x| x as usize).collect();
            at += usize::from(n);
            list
        };
        let mut out = Vec::new();
        for m in 0..mechanisms {
            let (d, o) = (take(self.detector_counts[m]), take(self.observable_counts[m]));
            let mut components = Vec::new();
            for _ in 0..self.component_counts[m] {
                components.push((take(self.component_detectors[component]), take(self.component_observables[component])));
                component += 1;
            }
            out.push(Mechanism { probability: self.probability[m], detectors: d, observables: o, components });
        }
        Model { detectors, observables, mechanisms: out }
    }

    /// Whether every place from `size` on holds the fill.
    pub fn rest_is(&self, size: ModelSize, fill: u8) -> bool {
        let bytes = |t: &[u8], n: usize| t[n..].iter().all(|&x| x == fill);
        self.probability[size.mechanisms..].iter().all(|x| x.to_bits() == f64::from(fill).to_bits())
            && bytes(&self.detector_counts, size.mechanisms)
            && bytes(&self.observable_counts, size.mechanisms)
            && bytes(&self.component_counts, size.mechanisms)
            && bytes(&self.component_detectors, size.components)
            && bytes(&self.component_observables, size.components)
            && self.entries[size.entries..].iter().all(|&x| x == u32::from(fill))
    }
}

/// The edge graph in lent tables, `words(observables)` words of observables an edge.
#[derive(Debug, Clone, Default)]
pub struct Graph {
    pub detectors: usize,
    pub observables: usize,
    pub edge_u: Vec<u32>,
    pub edge_v: Vec<u32>,
    pub edge_weight: Vec<f64>,
    pub edge_obs: Vec<u64>,
}

impl Graph {
    pub fn edges(&self) -> usize {
        self.edge_u.len()
    }

    pub fn row_words(&self) -> usize {
        words(self.observables)
    }

    pub fn edge_observables(&self, edge: usize) -> &[u64] {
        &self.edge_obs[edge * self.row_words()..(edge + 1) * self.row_words()]
    }

    pub fn push(&mut self, u: usize, v: Option<usize>, weight: f64, observables: &[u64]) {
        self.edge_u.push(u as u32);
        self.edge_v.push(v.map_or(BOUNDARY, |v| v as u32));
        self.edge_weight.push(weight);
        self.edge_obs.extend(observables);
    }

    pub fn remove(&mut self, edge: usize) {
        let words = self.row_words();
        self.edge_u.remove(edge);
        self.edge_v.remove(edge);
        self.edge_weight.remove(edge);
        self.edge_obs.drain(edge * words..(edge + 1) * words);
    }
}

/// Rows as they are handed in, right or wrong.
#[derive(Debug, Clone, PartialEq, Default)]
pub struct Packed {
    pub data: Vec<u64>,
    pub shots: usize,
    pub width: usize,
}

impl Packed {
    pub fn of(rows: &[Vec<u64>], width: usize) -> Packed {
        Packed { data: rows.concat(), shots: rows.len(), width }
    }
}

/// A refusal with the sheet's values, 0 where it has none.
#[derive(Debug, Clone, Copy, PartialEq)]
pub struct Refusal {
    pub code: u32,
    pub first: usize,
    pub second: usize,
}

impl Refusal {
    pub fn new(code: u32, first: usize, second: usize) -> Refusal {
        Refusal { code, first, second }
    }
}

pub fn words(bits: usize) -> usize {
    bits.div_ceil(64)
}

pub fn bit(row: &[u64], at: usize) -> bool {
    row[at / 64] >> (at % 64) & 1 == 1
}

pub fn lit(row: &[u64]) -> usize {
    row.iter().map(|w| w.count_ones() as usize).sum()
}

/// What is printed of a long table.
const PRINTED: usize = 60;

fn rest(f: &mut fmt::Formatter<'_>, n: usize) -> fmt::Result {
    if n > PRINTED {
        writeln!(f, "    and {} more", n - PRINTED)
    } else {
        Ok(())
    }
}

impl fmt::Display for Model {
    fn fmt(&self, f: &mut fmt::Formatter<'_>) -> fmt::Result {
        writeln!(f, "  model: {} detectors, {} observables", self.detectors, self.observables)?;
        for (i, m) in self.mechanisms.iter().enumerate().take(PRINTED) {
            write!(f, "    mechanism {i}: p {:?} detectors {:?} observables {:?}", m.probability, m.detectors, m.observables)?;
            if !m.components.is_empty() {
                write!(f, " components {:?}", m.components)?;
            }
            writeln!(f)?;
        }
        rest(f, self.mechanisms.len())
    }
}

impl fmt::Display for Graph {
    fn fmt(&self, f: &mut fmt::Formatter<'_>) -> fmt::Result {
        writeln!(f, "  graph: {} detectors, {} observables", self.detectors, self.observables)?;
        for e in 0..self.edges().min(PRINTED) {
            let far = if self.edge_v[e] == BOUNDARY { "boundary".into() } else { self.edge_v[e].to_string() };
            let observables = self.edge_observables(e);
            writeln!(f, "    edge {e}: {}-{far} weight {:?} observables {observables:x?}", self.edge_u[e], self.edge_weight[e])?;
        }
        rest(f, self.edges())
    }
}

impl fmt::Display for Packed {
    fn fmt(&self, f: &mut fmt::Formatter<'_>) -> fmt::Result {
        let shown = &self.data[..self.data.len().min(PRINTED)];
        write!(f, "{} shots of width {}, {} words {shown:x?}", self.shots, self.width, self.data.len())
    }
}
