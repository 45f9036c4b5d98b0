//! Edge graphs: docs/RULES.md, "Graphs".

use crate::BoundDecoder;

/// The second end of a boundary edge.
pub const BOUNDARY: u32 = 4_294_967_295;

/// An edge graph as lent tables. [`Model::compile`](crate::Model::compile) makes one, and any other can be written
/// down: each call checks it first, edge by edge.
#[derive(Clone, Debug, Default, PartialEq)]
pub struct Graph {
    /// The number of detectors.
    pub detectors: usize,
    /// The number of observables.
    pub observables: usize,
    /// The first end of each edge, a detector.
    pub edge_u: Vec<u32>,
    /// The second end, a greater detector or [`BOUNDARY`].
    pub edge_v: Vec<u32>,
    /// From 0 to 1,024, or infinity.
    pub edge_weight: Vec<f64>,
    /// A row of observables for each edge.
    pub edge_obs: Vec<u64>,
}

impl Graph {
    /// The number of edges: the entries of the longest of the first three tables, so that a table with an entry missing
    /// is refused with code 2 and no edge is left out unseen.
    #[must_use]
    pub fn edges(&self) -> usize {
        self.edge_u.len().max(self.edge_v.len()).max(self.edge_weight.len())
    }

    /// A decoder for this graph alone.
    #[must_use]
    pub fn decoder(&self) -> BoundDecoder<'_> {
        BoundDecoder::new(self)
    }
}
