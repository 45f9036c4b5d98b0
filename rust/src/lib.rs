//! Client of Pavrenni, a verified union-find decoder for quantum error correction.
//!
//! The decoder, the marker and the rate are written in Rattle and proved; this crate calls them as C functions and adds
//! no step of its own. A [`Model`] is decomposed and compiled to a [`Graph`]; a [`BoundDecoder`] decodes shots on it,
//! one by one or in batches, and tells the logical error rate; [`mark`] marks a correction. A refusal is an [`Error`]
//! with a [`Code`], and no call panics, whatever it is handed. The rules, with the limits and the order of refusals,
//! stand in docs/RULES.md of the repository.
//!
//! ```
//! use pavrenni::{mark, Mechanism, Model};
//!
//! let model = Model::new(2, 1).with_mechanisms([Mechanism::new(0.25, [0], [0]), Mechanism::new(0.25, [0, 1], [])]);
//! let graph = model.decompose()?.compile()?;
//!
//! // detector 1 is lit
//! let shot = [0b10];
//! let mut decoder = graph.decoder();
//! let mut row = [0];
//! let decoded = decoder.decode_shot(&shot, 2, &mut row)?;
//! assert_eq!(decoded.list, [1, 0]);
//! assert_eq!(row, [1]);
//!
//! // the marker passes what the decoder found, and writes the same row
//! let mut marked = [0];
//! assert!(mark(&graph, &shot, 2, decoded.list, &mut marked)?.passed());
//! assert_eq!(marked, row);
//! # Ok::<(), pavrenni::Error>(())
//! ```

#![warn(missing_debug_implementations, missing_docs)]

mod bound;
mod decoder;
mod error;
pub mod frames;
mod graph;
mod model;
pub mod raw;
pub mod sys;

pub use bound::BoundDecoder;
pub use decoder::{mark, Decoder, Marking, Packed, Rate, Shot};
pub use error::{Code, Error, Item};
pub use graph::{Graph, BOUNDARY};
pub use model::{Component, Mechanism, Model};

// The limits of docs/RULES.md: what is over them is refused with code 1, a list or its components with 5.

/// The most detectors of a model or a graph.
pub const MAX_DETECTORS: usize = 4_096;
/// The most observables of a model or a graph.
pub const MAX_OBSERVABLES: usize = 128;
/// The most mechanisms of a model, before and after decomposition, and the most edges of a graph.
pub const MAX_MECHANISMS: usize = 16_384;
/// The most entries of a list of detectors or of observables, and the most components of a mechanism.
pub const MAX_ENTRIES: usize = 16;
/// The most shots of a batch.
pub const MAX_SHOTS: usize = 16_777_216;

/// The words of a row of observables; none where they are over the limit, since that is refused before rows are looked
/// at.
fn row_words(observables: usize) -> usize {
    if observables <= MAX_OBSERVABLES {
        observables.div_ceil(64)
    } else {
        0
    }
}
