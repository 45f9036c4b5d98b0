//! The library's calls over tables and slices of any length, and its answers as they are.
//!
//! The types at the top of the crate are made of these. They are for a host that keeps its own memory, and for tests:
//! every call checks counts and lengths itself, so a table that is too short is refused with code 2 and does no harm.
//!
//! ```
//! use pavrenni::{raw, Graph};
//!
//! let graph = Graph { detectors: 2, edge_u: vec![0], edge_v: vec![1], edge_weight: vec![1.0], ..Graph::default() };
//! let mut scratch = raw::Scratch::with_lengths(&raw::lengths(2, 1));
//! scratch.growth.pop();
//! let answer = raw::decode_shot(&graph, 1, &[3], 2, &mut [], &mut [0; 2], &mut scratch);
//! assert_eq!(answer.code, 2);
//! ```

use crate::{sys, Graph, Packed};

// ---- memory

macro_rules! tables {
    ($($(#[$about:meta])* $table:ident: $entry:ty),* $(,)?) => {
        /// A model in flat tables, of any lengths: what decomposition and compiling read, and what decomposition
        /// writes.
        #[derive(Clone, Debug, Default, PartialEq)]
        pub struct Tables {
            $($(#[$about])* pub $table: Vec<$entry>),*
        }

        /// The tables of a model as they are lent: of [`Tables`], or of a host's own.
        #[derive(Clone, Copy, Debug)]
        pub struct LentTables<'a> {
            $($(#[$about])* pub $table: &'a [$entry]),*
        }

        impl<'a> From<&'a Tables> for LentTables<'a> {
            fn from(tables: &'a Tables) -> Self {
                LentTables { $($table: &tables.$table),* }
            }
        }
    };
}

tables! {
    /// The probability of each mechanism.
    probability: f64,
    /// How many detectors each mechanism has.
    detector_counts: u8,
    /// How many observables each mechanism has.
    observable_counts: u8,
    /// How many components each mechanism has.
    component_counts: u8,
    /// How many detectors each component has, those of mechanism 0 first.
    component_detectors: u8,
    /// How many observables each component has.
    component_observables: u8,
    /// For each mechanism its detectors, its observables, then for each of its components the same.
    entries: u32,
}

/// A graph as it is lent: a [`Graph`], or a host's own. The number of edges is told beside it.
#[derive(Clone, Copy, Debug)]
pub struct LentGraph<'a> {
    /// As [`Graph::detectors`].
    pub detectors: usize,
    /// As [`Graph::observables`].
    pub observables: usize,
    /// As [`Graph::edge_u`].
    pub edge_u: &'a [u32],
    /// As [`Graph::edge_v`].
    pub edge_v: &'a [u32],
    /// As [`Graph::edge_weight`].
    pub edge_weight: &'a [f64],
    /// As [`Graph::edge_obs`].
    pub edge_obs: &'a [u64],
}

impl<'a> From<&'a Graph> for LentGraph<'a> {
    fn from(graph: &'a Graph) -> Self {
        LentGraph {
            detectors: graph.detectors,
            observables: graph.observables,
            edge_u: &graph.edge_u,
            edge_v: &graph.edge_v,
            edge_weight: &graph.edge_weight,
            edge_obs: &graph.edge_obs,
        }
    }
}

impl LentGraph<'_> {
    fn size(&self, edges: usize) -> sys::Size {
        sys::Size { detectors: self.detectors, observables: self.observables, edges }
    }
}

/// Scratch slices, one vector each. What they hold before a call reaches no answer.
macro_rules! scratch {
    ($(#[$about:meta])* $name:ident of $lengths:ident { $($(#[$columns:meta])* $slice:ident: $entry:ty),* $(,)? }) => {
        $(#[$about])*
        #[derive(Clone, Debug, Default, PartialEq)]
        #[non_exhaustive]
        pub struct $name {
            $($(#[$columns])* pub $slice: Vec<$entry>),*
        }

        impl $name {
            /// Each slice with the length told for it.
            ///
            /// # Panics
            ///
            /// Where a length is more than a vector can have, which none that the library tells is.
            #[must_use]
            pub fn with_lengths(lengths: &sys::$lengths) -> Self {
                Self { $($slice: vec![<$entry>::default(); lengths.$slice]),* }
            }
        }
    };
}

scratch! {
    /// The decoder's scratch slices: docs/SCRATCH.md.
    Scratch of Lengths {
        /// Where the rows of each detector begin in `adj`.
        adj_offsets: u32,
        /// Edge, other end.
        adj: [u32; 2],
        /// Parent, boundary edge.
        tree: [u32; 2],
        /// Lit, known, odd, hot, free, three to spare.
        flags: [bool; 8],
        /// Defects, seen, active, front, order edge, order parent.
        stacks: [u32; 6],
        /// Touched, count, fresh, one to spare.
        links: [u32; 4],
        /// The growth of each edge.
        growth: f64,
        /// Whether each edge is saturated.
        sat: bool,
    }
}

scratch! {
    /// The scratch slices of decomposition: docs/SCRATCH.md.
    DecomposeScratch of DecomposeLengths {
        /// Where the lists of each mechanism of the new model begin in the entries given.
        starts: u32,
        /// The mechanism before it with the same first detector.
        before: u32,
        /// The last mechanism at each first detector.
        last_of: u32,
        /// The first kept mechanism at each first detector.
        first_of: u32,
        /// The kept mechanism after it with the same first detector.
        next_of: u32,
        /// The number of each candidate of a cover.
        numbers: u32,
        /// Its detectors.
        masks: u16,
        /// Its observables 0 to 63.
        words0: u64,
        /// Its observables 64 to 127.
        words1: u64,
        /// An earlier candidate that is equal to it.
        earlier: u32,
    }
}

scratch! {
    /// The scratch slices of compiling: docs/SCRATCH.md.
    CompileScratch of CompileLengths {
        /// The probability of each edge.
        edge_p: f64,
        /// The last edge at each first end.
        first: u32,
        /// The edge before it with the same first end.
        next: u32,
    }
}

scratch! {
    /// The marker's scratch slices: docs/SCRATCH.md.
    MarkScratch of MarkLengths {
        /// A bit for each edge met in the list.
        marks: u64,
        /// A bit for each detector that is wrong so far.
        wrong: u64,
    }
}

/// The least entries or rows of the decoder's scratch slices; all 0 for counts over the limits.
pub fn lengths(detectors: usize, edges: usize) -> sys::Lengths {
    // SAFETY: no pointer crosses.
    unsafe { sys::pavrenni_lengths_for(detectors, edges) }
}

/// The least lengths of the scratch slices of decomposition; all 0 for counts over the limits.
pub fn decompose_lengths(detectors: usize, mechanisms: usize) -> sys::DecomposeLengths {
    // SAFETY: no pointer crosses.
    unsafe { sys::pavrenni_decompose_lengths_for(detectors, mechanisms) }
}

/// The least lengths of the scratch slices of compiling; all 0 for counts over the limits.
pub fn compile_lengths(detectors: usize, mechanisms: usize) -> sys::CompileLengths {
    // SAFETY: no pointer crosses.
    unsafe { sys::pavrenni_compile_lengths_for(detectors, mechanisms) }
}

/// The least lengths of the marker's scratch slices; all 0 for counts over the limits.
pub fn mark_lengths(detectors: usize, edges: usize) -> sys::MarkLengths {
    // SAFETY: no pointer crosses.
    unsafe { sys::pavrenni_mark_lengths_for(detectors, edges) }
}

// ---- calls
//
// SAFETY, of each: what `sys` asks of a caller holds. A pointer is that of a slice or vector which is borrowed for the
// call, and crosses with its length: so it is aligned, never null (of an empty one neither), and valid for that length.
// What a call writes is borrowed mutably, so it overlaps nothing else that is lent. A `bool` of Rust is 0 or 1. Nothing
// is kept, so calls that borrow other memory may run at the same time.

/// A call on a model in tables, with its own arguments after them.
macro_rules! on_model {
    ($call:ident, $counts:expr, $model:expr, $($own:expr),* $(,)?) => {{
        let ([detectors, observables, mechanisms], model): ([usize; 3], LentTables) = ($counts, $model.into());
        // SAFETY: pointers and lengths of slices and vectors borrowed for the call, as said above.
        unsafe {
            sys::$call(
                detectors,
                observables,
                mechanisms,
                model.probability.as_ptr(),
                model.probability.len(),
                model.detector_counts.as_ptr(),
                model.detector_counts.len(),
                model.observable_counts.as_ptr(),
                model.observable_counts.len(),
                model.component_counts.as_ptr(),
                model.component_counts.len(),
                model.component_detectors.as_ptr(),
                model.component_detectors.len(),
                model.component_observables.as_ptr(),
                model.component_observables.len(),
                model.entries.as_ptr(),
                model.entries.len(),
                $($own),*
            )
        }
    }};
}

/// A call on a lent graph, with its own arguments after its tables.
macro_rules! on_graph {
    ($call:ident, $graph:expr, $edges:expr, $($own:expr),* $(,)?) => {{
        let graph: LentGraph = $graph.into();
        // SAFETY: pointers and lengths of slices and vectors borrowed for the call, as said above.
        unsafe {
            sys::$call(
                graph.size($edges),
                graph.edge_u.as_ptr(),
                graph.edge_u.len(),
                graph.edge_v.as_ptr(),
                graph.edge_v.len(),
                graph.edge_weight.as_ptr(),
                graph.edge_weight.len(),
                graph.edge_obs.as_ptr(),
                graph.edge_obs.len(),
                $($own),*
            )
        }
    }};
}

/// A call on a lent graph that decodes: what is written and the scratch slices come first, then the graph and what is
/// read.
macro_rules! decoding {
    ($call:ident, $graph:expr, $edges:expr, $scratch:expr, $($own:expr),*; $($read:expr),* $(,)?) => {{
        let graph: LentGraph = $graph.into();
        let s: &mut Scratch = $scratch;
        // SAFETY: pointers and lengths of slices and vectors borrowed for the call, as said above.
        unsafe {
            sys::$call(
                $($own,)*
                s.adj_offsets.as_mut_ptr(),
                s.adj_offsets.len(),
                s.adj.as_mut_ptr(),
                s.adj.len(),
                s.tree.as_mut_ptr(),
                s.tree.len(),
                s.flags.as_mut_ptr(),
                s.flags.len(),
                s.stacks.as_mut_ptr(),
                s.stacks.len(),
                s.links.as_mut_ptr(),
                s.links.len(),
                s.growth.as_mut_ptr(),
                s.growth.len(),
                s.sat.as_mut_ptr(),
                s.sat.len(),
                graph.size($edges),
                graph.edge_u.as_ptr(),
                graph.edge_u.len(),
                graph.edge_v.as_ptr(),
                graph.edge_v.len(),
                graph.edge_weight.as_ptr(),
                graph.edge_weight.len(),
                graph.edge_obs.as_ptr(),
                graph.edge_obs.len(),
                $($read),*
            )
        }
    }};
}

/// `pavrenni_decompose`, into the tables of `out`. The counts are of detectors, of observables and of mechanisms. Codes
/// are those of [`Model::decompose`](crate::Model::decompose), with 2 for short memory after the first 1; by each `out`
/// is zero.
pub fn decompose<'a>(counts: [usize; 3], model: impl Into<LentTables<'a>>, out: &mut Tables, scratch: &mut DecomposeScratch) -> sys::Model {
    on_model!(
        pavrenni_decompose,
        counts,
        model,
        out.probability.as_mut_ptr(),
        out.probability.len(),
        out.detector_counts.as_mut_ptr(),
        out.detector_counts.len(),
        out.observable_counts.as_mut_ptr(),
        out.observable_counts.len(),
        out.component_counts.as_mut_ptr(),
        out.component_counts.len(),
        out.component_detectors.as_mut_ptr(),
        out.component_detectors.len(),
        out.component_observables.as_mut_ptr(),
        out.component_observables.len(),
        out.entries.as_mut_ptr(),
        out.entries.len(),
        scratch.starts.as_mut_ptr(),
        scratch.starts.len(),
        scratch.before.as_mut_ptr(),
        scratch.before.len(),
        scratch.last_of.as_mut_ptr(),
        scratch.last_of.len(),
        scratch.first_of.as_mut_ptr(),
        scratch.first_of.len(),
        scratch.next_of.as_mut_ptr(),
        scratch.next_of.len(),
        scratch.numbers.as_mut_ptr(),
        scratch.numbers.len(),
        scratch.masks.as_mut_ptr(),
        scratch.masks.len(),
        scratch.words0.as_mut_ptr(),
        scratch.words0.len(),
        scratch.words1.as_mut_ptr(),
        scratch.words1.len(),
        scratch.earlier.as_mut_ptr(),
        scratch.earlier.len(),
    )
}

/// `pavrenni_compile`, into the four tables of `out`. The counts are of detectors, of observables and of mechanisms.
/// Codes are those of [`Model::compile`](crate::Model::compile), with 2 for short memory after 1; by each the tables
/// are zero.
pub fn compile<'a>(counts: [usize; 3], model: impl Into<LentTables<'a>>, out: &mut Graph, scratch: &mut CompileScratch) -> sys::Graph {
    on_model!(
        pavrenni_compile,
        counts,
        model,
        out.edge_u.as_mut_ptr(),
        out.edge_u.len(),
        out.edge_v.as_mut_ptr(),
        out.edge_v.len(),
        out.edge_weight.as_mut_ptr(),
        out.edge_weight.len(),
        out.edge_obs.as_mut_ptr(),
        out.edge_obs.len(),
        scratch.edge_p.as_mut_ptr(),
        scratch.edge_p.len(),
        scratch.first.as_mut_ptr(),
        scratch.first.len(),
        scratch.next.as_mut_ptr(),
        scratch.next.len(),
    )
}

/// `pavrenni_decode_shot`: XORs into the row and writes the list. Codes are those of
/// [`Decoder::decode_shot`](crate::Decoder::decode_shot); by each the list is untouched too.
pub fn decode_shot<'a>(
    graph: impl Into<LentGraph<'a>>,
    edges: usize,
    shot: &[u64],
    width: usize,
    row: &mut [u64],
    list: &mut [u32],
    scratch: &mut Scratch,
) -> sys::Shot {
    decoding!(
        pavrenni_decode_shot,
        graph,
        edges,
        scratch,
        row.as_mut_ptr(),
        row.len(),
        list.as_mut_ptr(),
        list.len();
        shot.as_ptr(),
        shot.len(),
        width,
    )
}

/// `pavrenni_decode_batch`: a row a shot into `out`; the list is scratch. Codes are those of
/// [`Decoder::decode_batch_into`](crate::Decoder::decode_batch_into).
pub fn decode_batch<'a>(
    graph: impl Into<LentGraph<'a>>,
    edges: usize,
    shots: Packed,
    out: &mut [u64],
    list: &mut [u32],
    scratch: &mut Scratch,
) -> sys::Batch {
    decoding!(
        pavrenni_decode_batch,
        graph,
        edges,
        scratch,
        out.as_mut_ptr(),
        out.len(),
        list.as_mut_ptr(),
        list.len();
        shots.words.as_ptr(),
        shots.words.len(),
        shots.shots,
        shots.width,
    )
}

/// `pavrenni_mark`: writes the row where the list passes. Codes are those of [`mark`](crate::mark).
pub fn mark<'a>(
    graph: impl Into<LentGraph<'a>>,
    edges: usize,
    shot: &[u64],
    width: usize,
    list: &[u32],
    row: &mut [u64],
    scratch: &mut MarkScratch,
) -> sys::Mark {
    on_graph!(
        pavrenni_mark,
        graph,
        edges,
        shot.as_ptr(),
        shot.len(),
        width,
        list.as_ptr(),
        list.len(),
        row.as_mut_ptr(),
        row.len(),
        scratch.marks.as_mut_ptr(),
        scratch.marks.len(),
        scratch.wrong.as_mut_ptr(),
        scratch.wrong.len(),
    )
}

/// `pavrenni_rate`: the rows decoded into `out`; the list is scratch. Codes are those of
/// [`Decoder::rate_into`](crate::Decoder::rate_into).
pub fn rate<'a>(
    graph: impl Into<LentGraph<'a>>,
    edges: usize,
    shots: Packed,
    truth: Packed,
    out: &mut [u64],
    list: &mut [u32],
    scratch: &mut Scratch,
) -> sys::Rate {
    decoding!(
        pavrenni_rate,
        graph,
        edges,
        scratch,
        out.as_mut_ptr(),
        out.len(),
        list.as_mut_ptr(),
        list.len();
        shots.words.as_ptr(),
        shots.words.len(),
        shots.shots,
        shots.width,
        truth.words.as_ptr(),
        truth.words.len(),
        truth.shots,
        truth.width,
    )
}
