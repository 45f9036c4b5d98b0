//! Detector error models: docs/RULES.md, "Models" and "Decomposition".

use crate::raw::{self, CompileScratch, DecomposeScratch, Tables};
use crate::{row_words, Error, Graph, Item};

/// A detector error model. Any model can be written down; the library checks it.
///
/// ```
/// use pavrenni::{Component, Mechanism, Model};
///
/// let mut model = Model::new(3, 1).with_mechanisms([
///     Mechanism::new(0.25, [0], [0]),
///     Mechanism::new(0.125, [0, 1, 2], [0])
///         .with_components([Component::new([0], [0]), Component::new([1, 2], [])]),
/// ]);
/// model.mechanisms.push(Mechanism::new(0.25, [1, 2], []));
/// assert_eq!(model.decompose()?.mechanisms.len(), 2);
/// # Ok::<(), pavrenni::Error>(())
/// ```
#[derive(Clone, Debug, Default, PartialEq)]
pub struct Model {
    /// The number of detectors.
    pub detectors: usize,
    /// The number of observables.
    pub observables: usize,
    /// The mechanisms, in order.
    pub mechanisms: Vec<Mechanism>,
}

/// An error mechanism: with this probability it flips these detectors and observables.
#[derive(Clone, Debug, Default, PartialEq)]
pub struct Mechanism {
    /// At least 0 and below 1.
    pub probability: f64,
    /// Strictly ascending.
    pub detectors: Vec<u32>,
    /// Strictly ascending.
    pub observables: Vec<u32>,
    /// Suggestions how it may be split.
    pub components: Vec<Component>,
}

/// A suggested component of a mechanism.
#[derive(Clone, Debug, Default, PartialEq, Eq)]
pub struct Component {
    /// Strictly ascending.
    pub detectors: Vec<u32>,
    /// Strictly ascending.
    pub observables: Vec<u32>,
}

impl Component {
    /// A component with these detectors and observables.
    #[must_use]
    pub fn new(detectors: impl Into<Vec<u32>>, observables: impl Into<Vec<u32>>) -> Component {
        Component { detectors: detectors.into(), observables: observables.into() }
    }
}

impl Mechanism {
    /// A mechanism with these detectors and observables, and no components.
    #[must_use]
    pub fn new(probability: f64, detectors: impl Into<Vec<u32>>, observables: impl Into<Vec<u32>>) -> Mechanism {
        Mechanism { probability, detectors: detectors.into(), observables: observables.into(), components: Vec::new() }
    }

    /// The mechanism with these components after those that it has.
    #[must_use]
    pub fn with_components(mut self, components: impl IntoIterator<Item = Component>) -> Mechanism {
        self.components.extend(components);
        self
    }
}

/// A list of over 16 entries is refused with 5, so no more than 17 are told of one: the count fits its byte, and the
/// library refuses the same mechanism in the same order as it would the whole list. Likewise for components.
const TOLD: usize = crate::MAX_ENTRIES + 1;

fn told<T>(list: &[T]) -> &[T] {
    &list[..list.len().min(TOLD)]
}

impl Tables {
    /// A model as the library reads it. Of a list, or of components, that are over 16 the first 17 stand here, for
    /// which the library refuses the mechanism as it would for all of them.
    #[must_use]
    pub fn of(model: &Model) -> Tables {
        let mut tables = Tables::default();
        for mechanism in &model.mechanisms {
            tables.push(mechanism);
        }
        tables
    }

    fn push(&mut self, mechanism: &Mechanism) {
        let components = told(&mechanism.components);
        self.probability.push(mechanism.probability);
        self.component_counts.push(components.len() as u8);
        let detectors = self.push_list(&mechanism.detectors);
        self.detector_counts.push(detectors);
        let observables = self.push_list(&mechanism.observables);
        self.observable_counts.push(observables);
        for component in components {
            let detectors = self.push_list(&component.detectors);
            self.component_detectors.push(detectors);
            let observables = self.push_list(&component.observables);
            self.component_observables.push(observables);
        }
    }

    /// Writes the entries of a list and returns how many they are.
    fn push_list(&mut self, list: &[u32]) -> u8 {
        let list = told(list);
        self.entries.extend_from_slice(list);
        list.len() as u8
    }

    /// Tables for what decomposition may leave of this model: each component may become a mechanism, and every list
    /// that is left stands in the model, once for each time that it is left.
    #[must_use]
    pub fn room(&self) -> Tables {
        let components = self.component_detectors.len();
        let mechanisms = self.probability.len() + components;
        Tables {
            probability: vec![0.0; mechanisms],
            detector_counts: vec![0; mechanisms],
            observable_counts: vec![0; mechanisms],
            component_counts: vec![0; mechanisms],
            component_detectors: vec![0; components],
            component_observables: vec![0; components],
            entries: vec![0; self.entries.len()],
        }
    }

    /// The first `mechanisms` mechanisms, read back; `None` where the tables do not hold them.
    #[must_use]
    pub fn mechanisms(&self, mechanisms: usize) -> Option<Vec<Mechanism>> {
        let mut entries = self.entries.as_slice();
        let mut component = 0;
        let mut read = Vec::new();
        for i in 0..mechanisms {
            let lists = take_lists(&mut entries, *self.detector_counts.get(i)?, *self.observable_counts.get(i)?)?;
            let mut mechanism = Mechanism::new(*self.probability.get(i)?, lists.detectors, lists.observables);
            for _ in 0..*self.component_counts.get(i)? {
                let (detectors, observables) = (*self.component_detectors.get(component)?, *self.component_observables.get(component)?);
                mechanism.components.push(take_lists(&mut entries, detectors, observables)?);
                component += 1;
            }
            read.push(mechanism);
        }
        Some(read)
    }
}

/// The detectors and observables at the front of the entries, which are then past them.
fn take_lists(entries: &mut &[u32], detectors: u8, observables: u8) -> Option<Component> {
    let mut take = |count: u8| {
        let list = entries.get(..usize::from(count))?.to_vec();
        *entries = &entries[list.len()..];
        Some(list)
    };
    Some(Component::new(take(detectors)?, take(observables)?))
}

impl Model {
    /// A model with so many detectors and observables, and no mechanisms.
    #[must_use]
    pub const fn new(detectors: usize, observables: usize) -> Model {
        Model { detectors, observables, mechanisms: Vec::new() }
    }

    /// The model with these mechanisms after those that it has.
    #[must_use]
    pub fn with_mechanisms(mut self, mechanisms: impl IntoIterator<Item = Mechanism>) -> Model {
        self.mechanisms.extend(mechanisms);
        self
    }

    /// The decomposed model: mechanisms of over two detectors are split along their suggested components, or by their
    /// first cover.
    ///
    /// ```
    /// use pavrenni::{Mechanism, Model};
    ///
    /// let model = Model::new(3, 0).with_mechanisms([
    ///     Mechanism::new(0.25, [0], []),
    ///     Mechanism::new(0.125, [1, 2], []),
    ///     Mechanism::new(0.25, [0, 1, 2], []),
    /// ]);
    /// let decomposed = model.decompose()?;
    /// assert_eq!(decomposed.mechanisms.len(), 2);
    /// assert_eq!(decomposed.mechanisms[0].probability, 0.375);
    /// # Ok::<(), pavrenni::Error>(())
    /// ```
    ///
    /// # Time
    ///
    /// The search for a cover takes time exponential in the size of a mechanism of many detectors whose pieces differ in
    /// observables alone: bound the size of models from a source that is not trusted, or decompose them in a process
    /// that can be ended.
    ///
    /// # Errors
    ///
    /// In this order: 1 where a count is over its limit; by mechanism 5 and then 4; by mechanism 6 where it has no
    /// cover, or 1 where one of its components would be a mechanism too many. The model is untouched, and nothing is
    /// handed back.
    pub fn decompose(&self) -> Result<Model, Error> {
        let tables = Tables::of(self);
        let mut out = tables.room();
        let mut scratch = DecomposeScratch::with_lengths(&raw::decompose_lengths(self.detectors, self.mechanisms.len()));
        let answer = raw::decompose(self.counts(), &tables, &mut out, &mut scratch);
        Error::check(answer.code, answer.first, answer.second, Item::Mechanism)?;
        let mechanisms = out.mechanisms(answer.mechanisms).expect("the library wrote the mechanisms that it told");
        Ok(Model { detectors: self.detectors, observables: self.observables, mechanisms })
    }

    /// The edge graph of a model whose mechanisms of probability above 0 have at most two detectors.
    ///
    /// ```
    /// use pavrenni::{Mechanism, Model, BOUNDARY};
    ///
    /// let mechanisms = [Mechanism::new(0.25, [0], [0]), Mechanism::new(0.25, [0, 1], [])];
    /// let model = Model::new(2, 1).with_mechanisms(mechanisms);
    /// let graph = model.compile()?;
    /// assert_eq!(graph.edge_u, [0, 0]);
    /// assert_eq!(graph.edge_v, [BOUNDARY, 1]);
    /// assert_eq!(graph.edge_obs, [1, 0]);
    /// # Ok::<(), pavrenni::Error>(())
    /// ```
    ///
    /// # Errors
    ///
    /// In this order: 1 where a count is over its limit; by mechanism 5, 4 and 7. The model is untouched, and nothing
    /// is handed back.
    pub fn compile(&self) -> Result<Graph, Error> {
        let tables = Tables::of(self);
        let mechanisms = self.mechanisms.len();
        let words = row_words(self.observables);
        let mut graph = Graph {
            detectors: self.detectors,
            observables: self.observables,
            edge_u: vec![0; mechanisms],
            edge_v: vec![0; mechanisms],
            edge_weight: vec![0.0; mechanisms],
            edge_obs: vec![0; mechanisms * words],
        };
        let mut scratch = CompileScratch::with_lengths(&raw::compile_lengths(self.detectors, mechanisms));
        let answer = raw::compile(self.counts(), &tables, &mut graph, &mut scratch);
        Error::check(answer.code, answer.first, answer.second, Item::Mechanism)?;
        graph.edge_u.truncate(answer.edges);
        graph.edge_v.truncate(answer.edges);
        graph.edge_weight.truncate(answer.edges);
        graph.edge_obs.truncate(answer.edges * words);
        Ok(graph)
    }

    /// Of detectors, of observables and of mechanisms.
    fn counts(&self) -> [usize; 3] {
        [self.detectors, self.observables, self.mechanisms.len()]
    }
}
