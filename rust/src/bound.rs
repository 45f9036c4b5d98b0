//! A decoder that keeps its graph.

use crate::{mark, Decoder, Error, Graph, Marking, Packed, Rate, Shot};

/// A decoder bound to one graph, which is lent to it as long as it lives. Each call answers as the one of [`Decoder`]
/// with this graph does; since the memory is the graph's own, none is refused for a decoder that was made for a smaller
/// one.
///
/// ```
/// use pavrenni::{BoundDecoder, Mechanism, Model, Packed};
///
/// let model = Model::new(2, 1).with_mechanisms([Mechanism::new(0.25, [0], [0]), Mechanism::new(0.25, [0, 1], [])]);
/// let graph = model.compile()?;
/// let mut decoder = BoundDecoder::new(&graph); // the same as graph.decoder()
///
/// let mut row = [0];
/// assert_eq!(decoder.decode_shot(&[0b10], 2, &mut row)?.list, [1, 0]);
/// assert_eq!(row, [1]);
///
/// let shots = Packed::new(&[0b00, 0b01, 0b10, 0b11], 4, 2);
/// assert_eq!(decoder.decode_batch(shots)?, [0, 1, 1, 0]);
/// let truth = Packed::new(&[0, 1, 0, 0], 4, 1);
/// assert_eq!(decoder.rate(shots, truth)?.rate, 0.25);
///
/// assert!(decoder.mark(&[0b10], 2, &[0, 1], &mut row)?.passed());
/// assert_eq!(decoder.mark(&[0b10], 2, &[1], &mut row)?.detector(), Some(0));
/// # Ok::<(), pavrenni::Error>(())
/// ```
#[derive(Clone, Debug)]
pub struct BoundDecoder<'g> {
    graph: &'g Graph,
    decoder: Decoder,
}

impl<'g> BoundDecoder<'g> {
    /// A decoder for this graph.
    #[must_use]
    pub fn new(graph: &'g Graph) -> BoundDecoder<'g> {
        BoundDecoder { graph, decoder: Decoder::new(graph) }
    }

    /// The graph.
    #[must_use]
    pub fn graph(&self) -> &'g Graph {
        self.graph
    }

    /// As [`Decoder::decode_shot`].
    ///
    /// # Errors
    ///
    /// As of [`Decoder::decode_shot`]: 1, 2, 5 and 4 by edge, 8, 9, 10, 11; the row is untouched.
    pub fn decode_shot(&mut self, shot: &[u64], width: usize, row: &mut [u64]) -> Result<Shot<'_>, Error> {
        self.decoder.decode_shot(self.graph, shot, width, row)
    }

    /// As [`Decoder::decode_batch`].
    ///
    /// # Errors
    ///
    /// As of [`Decoder::decode_batch`]: 1, 2, 5 and 4 by edge, 8, 9, 10, 11; no rows are handed back.
    pub fn decode_batch(&mut self, shots: Packed<'_>) -> Result<Vec<u64>, Error> {
        self.decoder.decode_batch(self.graph, shots)
    }

    /// As [`Decoder::decode_batch_into`].
    ///
    /// # Errors
    ///
    /// As of [`Decoder::decode_batch_into`]: 1, 2, 5 and 4 by edge, 8, 9, 10, 11; by 11 the rows before it are done.
    pub fn decode_batch_into(&mut self, shots: Packed<'_>, rows: &mut [u64]) -> Result<(), Error> {
        self.decoder.decode_batch_into(self.graph, shots, rows)
    }

    /// As [`Decoder::rate`].
    ///
    /// # Errors
    ///
    /// As of [`Decoder::rate`]: those of a batch, with 8 and 9 of the truth before 10, then 12; no rows are handed
    /// back.
    pub fn rate(&mut self, shots: Packed<'_>, truth: Packed<'_>) -> Result<Rate, Error> {
        self.decoder.rate(self.graph, shots, truth)
    }

    /// As [`Decoder::rate_into`].
    ///
    /// # Errors
    ///
    /// As of [`Decoder::rate_into`]: those of a batch, with 8 and 9 of the truth before 10, then 12 with all rows done.
    pub fn rate_into(&mut self, shots: Packed<'_>, truth: Packed<'_>, rows: &mut [u64]) -> Result<f64, Error> {
        self.decoder.rate_into(self.graph, shots, truth, rows)
    }

    /// As [`mark`].
    ///
    /// # Errors
    ///
    /// As of [`mark`]: 1, 2, 5 and 4 by edge, 8, 9, 10, 13; the row is untouched.
    pub fn mark(&self, shot: &[u64], width: usize, list: &[u32], row: &mut [u64]) -> Result<Marking, Error> {
        mark(self.graph, shot, width, list, row)
    }
}
